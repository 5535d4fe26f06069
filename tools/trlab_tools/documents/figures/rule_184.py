"""The deterministic limit: rule 184 below and above the density 1/2, and the triangles of three maximum speeds."""
from .diagram import Diagram
from .panels import LEGEND, PANELS, SIZE
from .runs import flows, snapshots
from .svg import BLUE, GREEN, RED, Drawing
from .trajectories import SpaceTime, legend

CELLS, STEPS = 40, 40
RULE = "rule nasch 0"
LANES = ("000000..0....0.......000.....0..........", "0000000.00000.0...00000000..0000.000.0..")
LIMITS = {1: GREEN, 2: RED, 5: BLUE}
# The sweeps of the triangles: the length of the lane, and the numbers of cars, for densities of 0.05 to 0.95.
LENGTH = 600
CARS = [LENGTH * k // 20 for k in range(1, 20)]


def triangles(drawing: Drawing) -> None:
    """The exact flow for each limit as lines, with the flows of a sweep as dots."""
    diagram = Diagram(drawing, PANELS[2])
    diagram.title_flow("cars per step")
    for limit, stroke in LIMITS.items():
        top = 1 / (limit + 1)
        diagram.line([(0, 0), (top, limit * top), (1, 0)], stroke)
        road = ["sweep 1", f"key {0:064}", f"limit {limit}", f"length {LENGTH}", "lanes 1", RULE, "warm 700", "measure 100"]
        measured = flows([*road, *(f"cars {cars}" for cars in CARS)])
        diagram.circles([(cars / LENGTH, flow) for cars, flow in zip(CARS, measured)], stroke, radius=2.6)
        diagram.label(top + 0.03, limit * top + 0.02, f"v_max = {limit}", stroke)
    diagram.title("flow against density, p = 0")


def draw() -> str:
    """Space-time diagrams of both lanes, and the triangles."""
    drawing = Drawing(*SIZE)
    for number, lane in enumerate(LANES):
        cars = CELLS - lane.count(".")
        panel = SpaceTime(drawing, PANELS[number], snapshots(1, [lane], [RULE], STEPS))
        panel.paths()
        panel.axes(every_cells=10, every_steps=10, has_times=number == 0)
        panel.title(f"v_max = 1, density {cars / CELLS:g}")
    triangles(drawing)
    legend(drawing, 120, LEGEND)
    return drawing.svg()
