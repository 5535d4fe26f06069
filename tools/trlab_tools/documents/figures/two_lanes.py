"""The two-lane model: cars pass a jam on the other lane, and the flow per lane against that of one lane."""
from .diagram import Diagram, means
from .panels import LEGEND, PANELS, SIZE
from .runs import moving_cars, parts, snapshots
from .svg import BLUE, RED, Drawing
from .trajectories import SpaceTime, legend

CELLS, STEPS, LIMIT = 120, 80, 5
# Lane 0 has a queue of 14 cars, and lane 1 evenly spaced cars at the maximum speed.
LANES = ["." * 60 + "0" * 14 + "." * 46, moving_cars(8, CELLS, LIMIT)]
RULE = [f"rule rickert {parts(1 / 2)} {parts(1)}"]
TABLE = "1996/random.csv"


def draw() -> str:
    """A space-time diagram of each lane, and the flow per lane with one lane and with two."""
    drawing = Drawing(*SIZE)
    run = snapshots(LIMIT, LANES, RULE, STEPS, key=1)
    for lane in 0, 1:
        panel = SpaceTime(drawing, PANELS[lane], run)
        panel.paths(lane)
        panel.axes(every_cells=40, every_steps=20, has_times=lane == 0)
        panel.title(f"lane {lane} (p = 1/2, c = 1)")
    diagram = Diagram(drawing, PANELS[2], widest=0.4, highest=0.4, density_step=0.1, flow_step=0.1)
    diagram.title_flow("cars per step and lane")
    for begin, fill in ("one_lane_", RED), ("two_lanes_", BLUE):
        points = means(TABLE, begin)
        diagram.line(points, fill)
        diagram.circles(points, fill, radius=2.4)
    diagram.label(0.16, 0.355, "two lanes", BLUE)
    diagram.label(0.13, 0.26, "one lane", RED)
    diagram.title("flow against density, p = 1/2")
    legend(drawing, 56, LEGEND, has_changes=True)
    return drawing.svg()
