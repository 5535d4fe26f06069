"""Random studies, as the records of their windows and as the frames that trlab makes of them."""
import itertools
import math
import statistics
from collections import namedtuple
from collections.abc import Callable, Mapping, Sequence
from fractions import Fraction
from typing import Any

from tests.libraries import hypothesis
from trlab import Table, Window
from trlab._analysis.frames import tidy
from trlab._studies.roads import KnownRoads

st = hypothesis.strategies

NAMES = ["p", "length", "site"]

BY_LANE = [f"{name}{lane}" for lane in (0, 1) for name in ("cars", "distance", "stopped")]
"""The columns of a window that count by lane."""

NO_CARS = dict.fromkeys(BY_LANE, 0)
"""Their values for a test that needs no lanes."""


def known(key: int, cars: int = 1, cells: int = 10, ensemble: str = "e") -> KnownRoads:
    """The known values of an input with one road."""
    return {"key": f"{key:064x}", "cars": [cars], "cells": cells, "ensembles": [ensemble]}


class Study:
    """Parameters `names` besides `seed`, records of rows, and the results that became `frame`."""

    def __init__(self, names: Sequence[str], results: Mapping[Any, Table[Window]], runs: Mapping[Any, KnownRoads]) -> None:
        self.names, self.results, self.runs, self.fields = names, results, runs, (*names, "seed")
        self.frame = tidy(results, self.fields, runs)
        self.seeds = len({place[-1] for place in results})

    def expected(self) -> dict[tuple[object, ...], tuple[int, float, float]]:
        """By choice of the other parameters, the number, mean and standard error of the flow over runs, by statistics
        and exact fractions."""
        groups: dict[tuple[object, ...], list[float]] = {}
        for place, rows in self.results.items():
            flow = Fraction(sum(row.distance for row in rows), rows[0].cells * sum(row.steps for row in rows))
            groups.setdefault(tuple(place[:-1]), []).append(float(flow))
        return {place: (len(flows), statistics.fmean(flows), error(flows)) for place, flows in groups.items()}


def error(values: Sequence[float]) -> float:
    return statistics.stdev(values) / math.sqrt(len(values)) if len(values) > 1 else math.nan


@st.composite
def studies(draw: Callable[[Any], Any]) -> Study:
    names = NAMES[: draw(st.integers(0, 3))]
    values = [
        draw(st.lists(st.sampled_from([0, 1, 2, 0.25, "a", "b"]), min_size=1, max_size=3, unique=True)) for _ in names
    ]
    seeds, windows = range(draw(st.integers(1, 5))), draw(st.integers(1, 4))
    cells, cars, steps = draw(st.integers(2, 50)), draw(st.integers(1, 2)), draw(st.integers(1, 9))
    choice, results, runs = namedtuple("Choice", [*names, "seed"]), {}, {}
    for number, place in enumerate(itertools.product(*values, seeds)):
        counts = st.integers(0, cars * steps)
        rows = [
            Window(
                step=steps * (number + 1), cars=cars, cells=cells, steps=steps, flow_millionths=0,
                **{name: draw(counts) for name in ("distance", "stopped", "changes", *BY_LANE)},
            )
            for number in range(windows)
        ]
        results[choice(*place)], runs[choice(*place)] = Table(Window, rows), known(number, cars, cells, str(place[:-1]))
    return Study(names, results, runs)
