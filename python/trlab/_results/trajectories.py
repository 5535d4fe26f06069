"""Trajectories: the paths of all cars in the snapshots of a run, and measurements on them."""
from __future__ import annotations

import math
from dataclasses import dataclass
from itertools import chain
from typing import Any, NamedTuple

from .._errors import ParameterError, SnapshotsError
from .._inputs.numbers import checked_int
from .._renamed import IN_TRAJECTORIES, need_current_name
from .arrays import numpy
from .following import Array, OnRoad, follow
from .jams import Jam, jams_of
from .snapshots import Snapshots


class Trip(NamedTuple):
    """A trip from one cell to another: `car` passes the end of the first cell in step `start`, and that of the second
    cell `time` steps later (0 if it passes both in one step)."""

    car: int
    start: int
    time: int


@dataclass(frozen=True, eq=False, repr=False)
class Trajectories(OnRoad):
    """The trajectory of every car, which `Snapshots.trajectories()` returns.

    Arrays are indexed `[step, car]`. Row 0 is the snapshot of step `first`, and row k that of step `first` + k. Cars
    are numbered from 0 by lane and cell in row 0.

    - `lane`, 0 or 1, and `cell`, 0 to `length` - 1, after the step;
    - `speed`: the cells that the car drove in the step. Row 0 has the speeds of the first snapshot. If that is step 0,
      they are those of the initial state, and no car drove them: take `speed[1:]` for means, as `speed_correlation`
      does;
    - `distance`: the cell in row 0 plus all later speeds, not wrapped round the ring.

    The arrays have 64-bit integers unless a smaller type is requested. All measurements use 64 bits. `trlab.follow`
    gives the same numbers step by step, and needs the memory of one step."""

    first: int
    length: int
    lanes: int
    lane: Array
    cell: Array
    distance: Array
    speed: Array

    @property
    def cars(self) -> int:
        """The number of cars."""
        return int(self.cell.shape[1])

    def __len__(self) -> int:
        return len(self.cell)

    def __repr__(self) -> str:
        return f"<trajectories of {self.cars} cars, steps {self.first} to {self.first + len(self) - 1}>"

    def __getattr__(self, name: str) -> Any:
        need_current_name("`Trajectories`", name, IN_TRAJECTORIES)
        raise AttributeError(f"trajectories have no attribute {name!r}")

    def time_headways(self, cell: int, lane: int = 0) -> Array:
        """The time headways at the end of a cell of a lane, in the order of time: the steps between a car that passes
        it and the next car that does, at least 1. A car at cell x that drove v cells passed the ends of the cells x - v
        to x - 1 of its present lane, and at most one car does in a step. Their mean is nearly 1 / flow. Raises
        `ParameterError` if the road has no such cell or lane."""
        cell = checked_int("cell", cell, 0, self.length - 1)
        lane = checked_int("lane", lane, 0, self.lanes - 1)
        now = self.cell[1:].astype(numpy.int64)
        has_passed = ((now - 1 - cell) % self.length < self.speed[1:]) & (self.lane[1:] == lane)
        return numpy.diff(numpy.flatnonzero(has_passed.any(axis=1)))

    def changes(self) -> Array:
        """The number of cars that changed lanes in each step after row 0, as the column `changes` of a series counts
        them."""
        return numpy.asarray((self.lane[1:] != self.lane[:-1]).sum(axis=1))

    def change_rate(self) -> float:
        """Lane changes per car and step, 0 to 1: the changes in all steps after row 0, divided by cars and steps. NaN
        without cars or steps."""
        car_steps = self.cars * (len(self) - 1)
        return int(self.changes().sum()) / car_steps if car_steps else math.nan

    def travel_times(self, start: int, end: int) -> list[Trip]:
        """The trips from the end of cell `start` to the end of cell `end`, on any lane, by car and time; laps if both
        are equal. Trips that the first or last snapshot cuts off are left out, so that slow trips are missing in a
        short run: run many more steps than a trip takes. Raises `ParameterError` if the road has no such cell."""
        start = checked_int("start", start, 0, self.length - 1)
        end = checked_int("end", end, 0, self.length - 1)
        between = (end - start - 1) % self.length + 1
        trips = []
        for car, passed in enumerate(self.distance.astype(numpy.int64).T):
            places = numpy.arange(passed[0] + (start - passed[0]) % self.length, passed[-1] - between, self.length)
            starts = numpy.searchsorted(passed, places, side="right")
            ends = numpy.searchsorted(passed, places + between, side="right")
            trips += [Trip(car, self.first + row, time) for row, time in zip(starts.tolist(), (ends - starts).tolist())]
        return trips

    def jams(self) -> list[Jam]:
        """The jams (see `Jam`, also for their mean lifetime) by first step and car."""
        return jams_of(self.first, self.speed, self.ahead(), self.gaps())

    def speed_correlation(self, places: int = 0, later: int = 0) -> float:
        """Pearson's correlation of the speed x of a car after a step with the speed y of the car `places` places ahead
        on the lane after that step, `later` steps later:

            r = (<xy> - <x><y>) / sqrt((<x**2> - <x>**2) (<y**2> - <y>**2)), -1 to 1,

        where <> is the mean over all cars and all steps after row 0 for which both speeds are there. Use `places=k` for
        the correlation in space and `later=t` for that in time. NaN if x or y does not vary. Raises `ParameterError` if
        `places` is negative, or `later` not from 0 to the number of steps - 1."""
        later = checked_int("later", later, 0, max(0, len(self) - 2))
        x = self.speed[1:len(self) - later].astype(numpy.int64)
        y = self.speed[1 + later:].astype(numpy.int64)
        if checked_int("places", places, 0):
            y = numpy.take_along_axis(y, self.ahead(places)[1:len(self) - later], axis=1)
        # Whole numbers, so that equal speeds have a spread of exactly 0.
        n, sum_x, sum_y = x.size, int(x.sum()), int(y.sum())
        sum_xx, sum_yy, sum_xy = int(numpy.vdot(x, x)), int(numpy.vdot(y, y)), int(numpy.vdot(x, y))
        spread = (n * sum_xx - sum_x * sum_x) * (n * sum_yy - sum_y * sum_y)
        return (n * sum_xy - sum_x * sum_y) / math.sqrt(spread) if spread else math.nan


def trajectories_of(snapshots: Snapshots, dtype: Any) -> Trajectories:
    """See `Snapshots.trajectories`."""
    kind = numpy.dtype(dtype)
    if kind.kind != "i":
        raise ParameterError(f"`dtype` must be a type of signed whole numbers, for example int32, not {kind}")
    followed = follow(snapshots)
    start = next(followed, None)
    if start is None:
        raise SnapshotsError("there are no snapshots")
    lane, cell, distance, speed = numpy.empty((4, len(snapshots), len(start)), dtype=kind)
    maximum = numpy.iinfo(kind).max
    for row, cars in enumerate(chain([start], followed)):
        if max(cars.distance.max(initial=0), cars.length - 1) > maximum:
            raise ParameterError(
                f"`dtype` {kind} is too small for cells and distances above {maximum}: choose a longer type"
            )
        lane[row], cell[row], distance[row], speed[row] = cars.lane, cars.cell, cars.distance, cars.speed
    return Trajectories(
        first=start.step, length=start.length, lanes=start.lanes, lane=lane, cell=cell, distance=distance, speed=speed
    )
