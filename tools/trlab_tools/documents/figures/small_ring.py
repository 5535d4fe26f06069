"""The exact flow of a ring of 12 cells with v_max = 1, and the flow of runs with 20 keys."""
from fractions import Fraction
from math import sqrt
from statistics import mean, stdev
from typing import List, NamedTuple, Tuple

from trlab.exact import flow

from .runs import flows, parts
from .svg import BLUE, INK, RED, Drawing

CELLS, KEYS = 12, 20
# The number of cars of each point.
CARS = range(1, CELLS)
# The probabilities to brake, with the colour of each.
BRAKES = {Fraction(1, 4): BLUE, Fraction(1, 2): RED}
# The edges of both panels, and half the width of the mark of an exact value.
LEFT, RIGHT = 84, 604
HALF_MARK = 7
GREY = "#909090"


class Measured(NamedTuple):
    """The mean flow over the keys, and its standard error."""

    flow: float
    error: float


def measured(brake: Fraction) -> List[Measured]:
    """The flow at each number of cars."""
    road = ["limit 1", f"length {CELLS}", "lanes 1", f"rule nasch {parts(brake)}", "warm 200", "measure 5000"]
    points = [f"cars {cars}" for cars in CARS]
    flows_by_key = [flows(["sweep 1", f"key {key:064x}", *road, *points]) for key in range(1, KEYS + 1)]
    return [Measured(mean(flows), stdev(flows) / sqrt(KEYS)) for flows in zip(*flows_by_key)]


def long_ring(density: float, brake: float) -> float:
    """The flow of a long ring for v_max = 1."""
    return (1 - sqrt(1 - 4 * (1 - brake) * density * (1 - density))) / 2


class Panel:
    """Axes with the density from 0 to 1 at the bottom, and a range of values at the left."""

    def __init__(self, drawing: Drawing, top: float, bottom: float, values: Tuple[float, float], marks: List[float], words: str):
        self.drawing, self.top, self.bottom, self.values = drawing, top, bottom, values
        for value in marks:
            drawing.path(f"M{LEFT} {self.up(value):.1f}H{RIGHT}", "#e4e4e4", 1)
            drawing.text(LEFT - 8, self.up(value) + 4.5, f"{value:g}", "end")
        drawing.line(LEFT, bottom, RIGHT, bottom)
        drawing.line(LEFT, bottom, LEFT, top)
        drawing.text(22, (top + bottom) / 2, words, "middle", turned=True)

    def across(self, density: float) -> float:
        """The x coordinate of a density."""
        return LEFT + (RIGHT - LEFT) * density

    def up(self, value: float) -> float:
        """The y coordinate of a value."""
        low, high = self.values
        return self.bottom - (self.bottom - self.top) * (value - low) / (high - low)

    def error_bar(self, density: float, value: float, error: float, stroke: str, shift: float = 0) -> None:
        """A dot with a bar of one error up and down; `shift` moves both to the right, so that two bars do not meet."""
        x, low, high = self.across(density) + shift, self.up(value - error), self.up(value + error)
        self.drawing.path(f"M{x:.1f} {low:.1f}V{high:.1f}M{x - 3:.1f} {low:.1f}h6M{x - 3:.1f} {high:.1f}h6", stroke, 1.3)
        self.drawing.circle(x, self.up(value), 3, stroke)


def exact_mark(drawing: Drawing, x: float, y: float, stroke: str) -> None:
    """A flat box around the middle x, y."""
    drawing.path(f"M{x - HALF_MARK:.1f} {y - 2.5:.1f}h{2 * HALF_MARK}v5h-{2 * HALF_MARK}z", stroke, 1.3)


def legend(drawing: Drawing, x: float, y: float) -> None:
    """The three signs of the upper panel, one below the other, and their meaning."""
    drawing.circle(x, y - 4, 3, INK)
    drawing.text(x + 14, y, f"mean of {KEYS} keys, with one standard error")
    exact_mark(drawing, x, y + 17.5, INK)
    drawing.text(x + 14, y + 22, f"exact, ring of {CELLS} cells")
    drawing.sample(x - 8, y + 44, 16, GREY, dashes="4 3")
    drawing.text(x + 14, y + 44, "known, long ring")


def curve(above: Panel, below: Panel, brake: Fraction, stroke: str) -> None:
    """The known flow of a long ring, and for each number of cars the exact flow and the measured one; below their difference."""
    known = [(k / 200, long_ring(k / 200, float(brake))) for k in range(201)]
    points = [(above.across(density), above.up(long_flow)) for density, long_flow in known]
    above.drawing.polyline(points, GREY, dashes="4 3")
    for cars, point in zip(CARS, measured(brake)):
        exact, density = float(flow(CELLS, cars, brake)), cars / CELLS
        exact_mark(above.drawing, above.across(density), above.up(exact), stroke)
        above.error_bar(density, point.flow, point.error, stroke)
        below.error_bar(density, 1000 * (point.flow - exact), 1000 * point.error, stroke, -3 if stroke == BLUE else 3)
    top = float(flow(CELLS, CELLS // 2, brake))
    above.drawing.text(above.across(0.5), above.up(top) - 12, f"p = {brake}", "middle", fill=stroke, weight="bold")


def draw() -> str:
    """The flows in the upper panel, and the measured minus the exact ones in the lower panel."""
    drawing = Drawing(640, 560)
    above = Panel(drawing, 20, 320, (0, 0.32), [0, 0.1, 0.2, 0.3], "flow (cars per step)")
    below = Panel(drawing, 360, 490, (-1.2, 1.2), [-1, 0, 1], "difference (1/1000)")
    for k in range(6):
        drawing.text(below.across(k / 5), 508, f"{k / 5:g}", "middle")
    drawing.text((LEFT + RIGHT) / 2, 532, "density (cars per cell)", "middle")
    for brake, stroke in BRAKES.items():
        curve(above, below, brake, stroke)
    legend(drawing, above.across(0.22), 262)
    return drawing.svg()
