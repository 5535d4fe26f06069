"""Detectors on the road, as traffic engineers know them, from one snapshot at a time, so that a long run needs little
memory.

Definitions: J. G. Wardrop, Some theoretical aspects of road traffic research, Proc. Inst. Civ. Eng. 1, 325-362 (1952);
L. C. Edie, Discussion of traffic stream measurements and definitions, Proc. 2nd Int. Symp. on the Theory of Traffic
Flow, 139-154 (1963)."""
from __future__ import annotations

import math
from collections import defaultdict
from collections.abc import Iterable, Iterator, Sequence
from typing import Any, NamedTuple, Optional

from .._errors import ParameterError, SnapshotsError
from .._inputs.numbers import MAX_SPEED, checked_int
from .._inputs.states import SPEEDS
from .._results.snapshots import Snapshot
from .required import pandas


def passings(snapshots: Iterable[Snapshot], cells: Sequence[int]) -> pandas.DataFrame:
    """One row for each car that passes the end of one of the `cells`, by time, cell and lane:

    - `step` in which it passes, `cell` and `lane` of the detector;
    - `speed` in this step, in cells per step, 1 to 35;
    - `time_headway`: the steps since the car before it passed the same end, at least 1; NaN for the first car.

    A step is a lane change and then a motion: a car that is at cell x of a lane after the step, and drove v cells in
    it, passed the ends of the cells x - v to x - 1 of this lane (on a ring). So a car that changes lanes passes on its
    new lane, a stopped car passes nothing, and at most one car passes the end of a cell of a lane in a step, because a
    car drives at most its gap.

    `snapshots` are those of consecutive steps, for example `job.snapshots(first=1000)`; the first only gives the
    initial places of the cars. Raises `SnapshotsError` if they are not, and `ParameterError` for cells that the road
    does not have."""
    rows: list[tuple[int, int, int, int]] = []
    for step, observations in _observed(snapshots, cells):
        rows += [(step, seen.cell, seen.lane, seen.speed) for seen in observations if seen.speed]
    frame = pandas.DataFrame(rows, columns=["step", "cell", "lane", "speed"], dtype="int64")
    frame = frame.sort_values(["step", "cell", "lane"], ignore_index=True)
    frame["time_headway"] = frame.groupby(["cell", "lane"])["step"].diff()
    return frame


def detectors(snapshots: Iterable[Snapshot], cells: Sequence[int], every: int) -> pandas.DataFrame:
    """The counts of detectors (loops) at the ends of the `cells` in each window of `every` steps: a row for each
    `cell`, `lane` and `step`, which is the last step of the window, as in `Job.series`. With n cars that pass in the
    window at the speeds v (see `trlab.passings`):

    - `count` = n, in cars;
    - `flow` = n / every, in cars per step and lane;
    - `time_mean_speed` = sum(v) / n, in cells per step: the arithmetic mean of the speeds at a point (Wardrop 1952);
    - `harmonic_mean_speed` = n / sum(1 / v), in cells per step: it estimates the space-mean speed, which is never above
      the time-mean speed (Wardrop 1952). A stopped car passes no detector and is not counted, so in jams both are too
      high, and flow / speed is too low a density;
    - `occupancy`, 0 to 1: the share of the steps after which a car is in the cell. It is Edie's (1963) density in cars
      per cell of the region of one cell and `every` steps, if a car is in the cell for whole steps, and counts stopped
      cars;
    - `mean_time_headway`, in steps: the mean of the `time_headway` of these n cars; the car before may have passed
      before the window.

    Speeds are NaN if n is 0, and the headway is NaN if no car has one. The means of several windows or lanes follow
    from `count`, not from averaging speeds. Raises `SnapshotsError` unless the snapshots are those of consecutive steps
    of one run, and `ParameterError` if they are not whole windows, or for cells that the road does not have."""
    checked_int("every", every, 1)
    rows: list[tuple[Any, ...]] = []
    counts: dict[tuple[int, int], _Detector] = defaultdict(_Detector)
    steps = 0
    for steps, (step, observations) in enumerate(_observed(snapshots, cells), 1):
        for seen in observations:
            counts[seen.cell, seen.lane].add(step, seen.is_occupied, seen.speed)
        if steps % every == 0:
            for place, detector in counts.items():
                rows.append((*place, step, *detector.values(every)))
                detector.clear()
    if steps % every or not steps:
        raise ParameterError(
            f"{steps} steps are not whole windows of {every} steps: choose `every`, `first` or `steps` to match"
        )
    levels = ["cell", "lane", "step"]
    values = ["count", "flow", "time_mean_speed", "harmonic_mean_speed", "occupancy", "mean_time_headway"]
    return pandas.DataFrame(rows, columns=[*levels, *values]).set_index(levels).sort_index()


class _Detector:
    """The counts of one detector on one lane in a window, and the step in which the last car passed it."""

    def __init__(self) -> None:
        self.last: Optional[int] = None
        self.clear()

    def clear(self) -> None:
        """Begin the next window. The last car stays, for the time headway of the next one."""
        self.cars_at_speed = (MAX_SPEED + 1) * [0]
        self.occupied_steps = self.sum_of_headways = self.count_of_headways = 0

    def add(self, step: int, is_occupied: bool, speed: int) -> None:
        """Count a step, in which a car at this speed passes; none does if it is 0."""
        self.occupied_steps += is_occupied
        if speed:
            self.cars_at_speed[speed] += 1
            if self.last is not None:
                self.sum_of_headways += step - self.last
                self.count_of_headways += 1
            self.last = step

    def values(self, steps: int) -> tuple[Any, ...]:
        """The values of a window of this number of steps, in the order of the columns of `detectors`."""
        count = sum(self.cars_at_speed)
        # A car at speed 0 passes no detector.
        passed = [*enumerate(self.cars_at_speed)][1:]
        mean, harmonic = math.nan, math.nan
        if count:
            mean = sum(speed * cars for speed, cars in passed) / count
            harmonic = count / sum(cars / speed for speed, cars in passed)
        headway = self.sum_of_headways / self.count_of_headways if self.count_of_headways else math.nan
        return count, count / steps, mean, harmonic, self.occupied_steps / steps, headway


class _Road:
    """A road with detectors at the ends of these cells."""

    def __init__(self, snapshot: Snapshot, cells: Sequence[int]) -> None:
        self.lengths, self.cars, self.step = [len(lane) for lane in snapshot.lanes], _cars_on(snapshot), snapshot.step
        if not isinstance(cells, Iterable):
            raise ParameterError(f"`cells` must be a list of cells, for example [0, 100], not {cells!r}")
        self.cells = [checked_int("a cell", cell, 0, self.lengths[0] - 1) for cell in cells]
        if len(set(self.cells)) < len(self.cells) or not self.cells:
            raise ParameterError("`cells` must be different cells, at least one")

    def need_next(self, snapshot: Snapshot) -> None:
        """Raises `SnapshotsError` if this cannot be the next snapshot."""
        if snapshot.step != self.step + 1:
            raise SnapshotsError(
                f"step {snapshot.step} follows step {self.step}, and detectors need every step: leave `every` at 1, "
                "and do not put parts of a run together"
            )
        if [len(lane) for lane in snapshot.lanes] != self.lengths or _cars_on(snapshot) != self.cars:
            raise SnapshotsError(
                f"the road of step {snapshot.step} has another size or number of cars than the one before it"
            )
        self.step = snapshot.step


def _cars_on(snapshot: Snapshot) -> int:
    """The number of cars on the lanes of a snapshot."""
    return sum(len(lane) - lane.count(".") for lane in snapshot.lanes)


class _Observation(NamedTuple):
    """The observation of a detector in a step: its cell and lane, whether a car is in the cell after the step, and the
    speed of the car that passed the end of the cell, or 0."""

    cell: int
    lane: int
    is_occupied: bool
    speed: int


def _observed(snapshots: Iterable[Snapshot], cells: Sequence[int]) -> Iterator[tuple[int, list[_Observation]]]:
    """Each step from the second snapshot on, with the observations of all detectors."""
    road: Optional[_Road] = None
    for snapshot in snapshots:
        if road is None:
            road = _Road(snapshot, cells)
            continue
        road.need_next(snapshot)
        yield snapshot.step, [
            _Observation(cell, lane=number, is_occupied=lane[cell] != ".", speed=_passing(lane, cell))
            for cell in road.cells for number, lane in enumerate(snapshot.lanes)
        ]
    if road is None:
        raise SnapshotsError("there are no snapshots")


def _passing(lane: str, cell: int) -> int:
    """The speed of the car that passed the end of a cell in the step before this snapshot, or 0.

    It is the next car ahead, if it drove more cells than there are empty ones between it and the end of the cell. The
    car ahead of that one drove at most its gap, and so did not come from behind this cell."""
    near = lane[cell + 1:cell + 1 + MAX_SPEED]
    if len(near) < MAX_SPEED:
        near += lane[:min(cell + 1, MAX_SPEED - len(near))]
    cars = near.lstrip(".")
    if not cars:
        return 0
    speed = SPEEDS.find(cars[0])
    if speed < 0:
        raise SnapshotsError(f"a cell has a character that is neither a speed nor a dot: {cars[0]!r}")
    return speed if speed > len(near) - len(cars) else 0
