"""A second program for series: the table of a job as sums over the snapshots that `trlab run` writes.

It knows nothing of rules. Cars that changed lanes are found in two consecutive snapshots: a car at
speed v has come from v cells behind, on its present lane."""
from collections.abc import Iterable, Iterator, Sequence
from typing import NamedTuple

from trlab import Snapshot, Window
from trlab._inputs.states import SPEEDS


class OnLane(NamedTuple):
    """The counts of a lane in one snapshot."""

    cars: int
    distance: int
    stopped: int


def counts_on_lane(lane: str) -> OnLane:
    counts = [lane.count(character) for character in SPEEDS]
    return OnLane(sum(counts), sum(speed * count for speed, count in enumerate(counts)), counts[0])


def cells_before_motion(lane: str) -> set[int]:
    """The cells of a lane from which its cars came in the motion."""
    return {(cell - SPEEDS.index(character)) % len(lane) for cell, character in enumerate(lane) if character != "."}


def changes(before: Snapshot, after: Snapshot) -> int:
    """The number of cars that changed lanes: cells that were taken before, and were empty when the motion began."""
    if len(before.lanes) == 1:
        return 0
    taken = [{cell for cell, character in enumerate(lane) if character != "."} for lane in before.lanes]
    return sum(len(cells - cells_before_motion(lane)) for cells, lane in zip(taken, after.lanes))


def window(snapshots: Sequence[Snapshot]) -> Window:
    """The line of a window, by the snapshot before it and those of its steps."""
    counted = snapshots[1:]
    lanes = len(counted[0].lanes)
    cells, steps = lanes * len(counted[0].lanes[0]), len(counted)
    sums = [
        [sum(column) for column in zip(*(counts_on_lane(snapshot.lanes[lane]) for snapshot in counted))]
        for lane in range(lanes)
    ]
    (cars0, distance0, stopped0), (cars1, distance1, stopped1) = sums if lanes == 2 else [*sums, [0, 0, 0]]
    distance = distance0 + distance1
    return Window(
        step=counted[-1].step,
        cars=(cars0 + cars1) // steps,
        cells=cells,
        steps=steps,
        distance=distance,
        stopped=stopped0 + stopped1,
        changes=sum(changes(*pair) for pair in zip(snapshots, counted)),
        flow_millionths=distance * 1000000 // (cells * steps),
        cars0=cars0,
        distance0=distance0,
        stopped0=stopped0,
        cars1=cars1,
        distance1=distance1,
        stopped1=stopped1,
    )


def windows(snapshots: Iterable[Snapshot], every: int = 1, first: int = 0) -> Iterator[Window]:
    """The whole windows of a run, from a step on."""
    in_window: list[Snapshot] = []
    for snapshot in snapshots:
        if snapshot.step >= first:
            in_window.append(snapshot)
        if len(in_window) == every + 1:
            yield window(in_window)
            in_window = [snapshot]
