"""The VDR model: free flow and a jam at one density, and the two branches of the flow, from the table of studies/1998."""
from .diagram import Diagram, runs
from .panels import BOTTOM, LEGEND, PANELS, SIZE, TOP
from .runs import moving_cars, parts, snapshots
from .svg import BLUE, RED, SMALL, Drawing
from .trajectories import SpaceTime, legend

CELLS, CARS, STEPS, LIMIT = 150, 15, 90, 5
# The probability to brake of moving cars, and that of stopped ones.
BRAKE, BRAKE_AT_START = 1 / 64, 3 / 4
RULE = [f"rule vdr {parts(BRAKE)} {parts(BRAKE_AT_START)}"]
# The initial state of each run.
LANES = {"from moving cars": moving_cars(CARS, CELLS, LIMIT), "from one jam": "0" * CARS + "." * (CELLS - CARS)}
TABLE = "1998/table.csv"
# Between these densities all runs stay on the branch of their initial state.
BOTH_BRANCHES = 0.055, 0.14
# The highest density of the diagram.
WIDEST = 0.2


def free_line(density: float) -> float:
    """The flow if no car meets another."""
    return density * (LIMIT - BRAKE)


def jam_line(density: float) -> float:
    """The flow with one wide jam, which a car leaves in each step with the probability not to brake."""
    return (1 - BRAKE_AT_START) * (1 - density)


def branches(drawing: Drawing) -> None:
    """The flow of each run, with the two lines, and the densities of both branches in grey."""
    diagram = Diagram(drawing, PANELS[2], widest=WIDEST, highest=0.85, density_step=0.05, flow_step=0.2)
    low, high = map(diagram.across, BOTH_BRANCHES)
    drawing.box(low, TOP, high - low, BOTTOM - TOP, fill="#eeeeee", stroke="none", round_by=0)
    diagram.title_flow("cars per step")
    diagram.curve(free_line, BLUE, end=0.165)
    diagram.curve(jam_line, RED, end=WIDEST)
    for begin, fill in ("moving", BLUE), ("jam", RED):
        branch = {density: flows for density, flows in runs(TABLE, f"{begin}_").items() if density <= WIDEST}
        points = [(density, flow) for density, flows in branch.items() for flow in flows]
        diagram.circles(points, fill, radius=2.8, opacity=0.6)
    diagram.label(0.083, 0.53, "free line", BLUE, "end")
    diagram.label(0.195, 0.14, "jam line", RED, "end")
    drawing.text((low + high) / 2, 50, "two flows", "middle", SMALL, "#606060")
    diagram.title("flow (each dot is one run)")


def draw() -> str:
    """Space-time diagrams of both initial states, and the branches."""
    drawing = Drawing(*SIZE)
    for number, (title, lane) in enumerate(LANES.items()):
        panel = SpaceTime(drawing, PANELS[number], snapshots(LIMIT, [lane], RULE, STEPS, key=1))
        panel.paths()
        panel.axes(every_cells=50, every_steps=30, has_times=number == 0)
        panel.title(title)
    branches(drawing)
    legend(drawing, 120, LEGEND)
    return drawing.svg()
