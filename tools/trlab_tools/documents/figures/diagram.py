"""A fundamental diagram: flow against density."""
import csv
from statistics import mean
from typing import Callable, Dict, List, Tuple

from ... import TOP as REPOSITORY
from .panels import BOTTOM, TOP, Panel
from .svg import SMALL, Drawing, Points


def runs(table: str, begin: str) -> Dict[float, List[float]]:
    """The flows of the rows of a study's table whose input has this first part of its name, by density."""
    flows_by_density: Dict[float, List[float]] = {}
    with open(REPOSITORY / "studies" / table, encoding="utf-8") as file:
        for row in csv.DictReader(file):
            if row["text"].startswith(begin):
                flow = int(row["distance"]) / (int(row["cells"]) * int(row["steps"]))
                flows_by_density.setdefault(int(row["cars"]) / int(row["cells"]), []).append(flow)
    return flows_by_density


def means(table: str, begin: str) -> Points:
    """The mean flow at each density of such rows."""
    return [(density, mean(flows)) for density, flows in sorted(runs(table, begin).items())]


def multiples(step: float, end: float) -> List[float]:
    """The values of an axis: 0, `step`, twice `step` and so on, up to `end`, which may be rounded."""
    return [place * step for place in range(int(end / step + 1e-9) + 1)]


class Diagram(Panel):
    """A panel with the density from left to right, up to `widest`, and the flow upwards, up to `highest`."""

    def __init__(
        self, drawing: Drawing, place: Tuple[int, int],
        widest: float = 1, highest: float = 0.9, density_step: float = 0.2, flow_step: float = 0.2,
    ) -> None:
        super().__init__(drawing, place)
        self.widest, self.highest = widest, highest
        for density in multiples(density_step, widest):
            self.tick_below(self.across(density), f"{density:g}")
        for flow in multiples(flow_step, highest):
            self.tick_left(self.up(flow), f"{flow:g}")
        drawing.line(self.left, BOTTOM, self.left + self.width, BOTTOM)
        drawing.line(self.left, BOTTOM, self.left, TOP)
        self.title_below("density (cars per cell)")

    def across(self, density: float) -> float:
        """The x coordinate of a density."""
        return self.left + self.width * density / self.widest

    def up(self, flow: float) -> float:
        """The y coordinate of a flow."""
        return BOTTOM - (BOTTOM - TOP) * flow / self.highest

    def title_flow(self, unit: str) -> None:
        """The title of the axis of the flow."""
        self.title_left(f"flow ({unit})", 36)

    def line(self, points: Points, stroke: str, dashes: str = "") -> None:
        """A line through points, each a density and a flow."""
        self.drawing.polyline([(self.across(density), self.up(flow)) for density, flow in points], stroke, dashes=dashes)

    def curve(self, flow: Callable[[float], float], stroke: str, begin: float = 0, end: float = 1) -> None:
        """The flow as a function of the density, from `begin` to `end`."""
        places = [begin + (end - begin) * k / 100 for k in range(101)]
        self.line([(density, flow(density)) for density in places], stroke)

    def circles(self, points: Points, fill: str, radius: float = 3, opacity: float = 1) -> None:
        """A dot at each point."""
        for density, flow in points:
            self.drawing.circle(self.across(density), self.up(flow), radius, fill, opacity)

    def label(self, density: float, flow: float, words: str, fill: str, anchor: str = "start") -> None:
        """Words at a density and a flow, chosen by eye beside the line that they name."""
        self.drawing.text(self.across(density), self.up(flow), words, anchor, SMALL, fill)
