"""Runs of two branches, for example with and without a jam, whose mean is the flow of neither."""
from __future__ import annotations

from .._errors import FrameError
from .columns import Array, as_numbers
from .repetitions import Repetitions
from .required import numpy

LEAST_RUNS = 5

LEAST_GAP, LEAST_RATIO = 0.25, 3.0
"""The gap between two groups of flows, as a share of the largest flow, and in standard deviations within the groups."""

MAX_SCATTER = 0.3
"""The standard deviation of flows, as a share of their mean, up to which runs are of one branch."""


def need_one_branch(groups: Repetitions) -> None:
    """Raises `FrameError` if the flows of the runs of one mean are clearly not those of one branch."""
    if "flow" not in groups.rows:
        return
    flow, group = as_numbers(groups.rows["flow"]), groups.group_of_row
    least, largest = numpy.full(group.max() + 1, numpy.inf), numpy.full(group.max() + 1, -numpy.inf)
    numpy.minimum.at(least, group, flow)
    numpy.maximum.at(largest, group, flow)
    differ = (numpy.bincount(group) >= LEAST_RUNS) & (largest > least) & (largest - least >= LEAST_GAP * largest)
    for number in numpy.flatnonzero(differ):
        flows = numpy.sort(flow[group == number])
        if _are_in_two_groups(flows) or flows.std(ddof=1) >= MAX_SCATTER * flows.mean():
            raise FrameError(
                f"the flows of the {len(flows)} runs at {groups.place(int(number))} differ too much for one mean: "
                f"{_shown(flows)}. Some runs may have jammed and others not, so that the mean would be the flow of "
                "neither, and depend on the length of the runs. Choose one branch by the initial state "
                "(`start=moving` or `start=jammed`), leave out more steps (see `Table.drift`), or show the runs one by "
                "one. `means(.., mixed=True)` averages them all the same"
            )


def _are_in_two_groups(flows: Array) -> bool:
    """Whether there is a gap between sorted flows that is large, also compared with the scatter on both sides of it."""
    size = int(numpy.diff(flows).argmax()) + 1
    gap = flows[size] - flows[size - 1]
    squares = sum(((part - part.mean()) ** 2).sum() for part in (flows[:size], flows[size:]))
    return bool(gap >= LEAST_GAP * flows[-1] and gap >= LEAST_RATIO * numpy.sqrt(squares / (len(flows) - 2)))


def _shown(flows: Array) -> str:
    """The sorted flows in a message."""
    shown = [f"{flow:.3f}" for flow in flows]
    return ", ".join(shown if len(shown) <= 10 else [*shown[:4], "..", *shown[-4:]])
