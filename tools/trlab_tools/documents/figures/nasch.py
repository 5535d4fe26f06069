"""The Nagel-Schreckenberg model: jams that begin without an obstacle, and the flow against the density."""
from math import sqrt

from .diagram import Diagram, means
from .panels import LEGEND, SIZE
from .runs import moving_cars, parts, snapshots
from .svg import BLUE, GREEN, Drawing
from .trajectories import SpaceTime, legend

CELLS, CARS, STEPS, LIMIT = 120, 20, 100, 5
RULE = [f"rule nasch {parts(1 / 4)}"]
GREY = "#808080"
# The left edges and the widths of the panels.
SPACE_TIME, FLOW = (56, 330), (466, 280)


def exact(density: float) -> float:
    """The flow of a long ring for v_max = 1 and p = 1/2."""
    return (1 - sqrt(1 - 2 * density * (1 - density))) / 2


def draw() -> str:
    """The space-time diagram of a jam, and measured and exact flows."""
    drawing = Drawing(*SIZE)
    panel = SpaceTime(drawing, SPACE_TIME, snapshots(LIMIT, [moving_cars(CARS, CELLS, LIMIT)], RULE, STEPS, key=1))
    panel.paths()
    panel.axes(every_cells=20, every_steps=20)
    panel.title("v_max = 5, p = 1/4, density 1/6")
    legend(drawing, 96, LEGEND)
    diagram = Diagram(drawing, FLOW)
    diagram.title_flow("cars per step")
    diagram.line([(0, 0), (1 / 6, 5 / 6), (1, 0)], GREY, dashes="5 3")
    diagram.curve(exact, GREEN)
    measured = means("1992/full_table.csv", "0.")
    diagram.line(measured, BLUE)
    diagram.circles(measured, BLUE, radius=2.4)
    diagram.title("flow against density, v_max = 5")
    diagram.label(0.29, 0.74, "p = 0, exact", GREY)
    diagram.label(0.18, 0.335, "p = 1/2, measured", BLUE)
    diagram.label(0.5, 0.05, "v_max = 1, p = 1/2, exact", GREEN, "middle")
    return drawing.svg()
