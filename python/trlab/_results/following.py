"""Cars that are followed from snapshot to snapshot, one step at a time."""
from __future__ import annotations

from collections.abc import Iterable, Iterator
from dataclasses import dataclass
from typing import Any, NamedTuple, Optional

from .._errors import SnapshotsError
from .._inputs.numbers import checked_int
from .arrays import numpy
from .snapshots import Snapshot
from .written import EMPTY, NUMBERS

Array = numpy.ndarray[Any, Any]


class OnRoad:
    """Cars on a road of `lanes` lanes of `length` cells. The last axis of each array is the car."""

    length: int
    lanes: int
    lane: Array
    cell: Array

    def ahead(self, places: int = 1) -> Array:
        """The number of the car `places` places ahead on the same lane, which is a ring: of n cars, n places ahead is
        the car itself. On one lane no car overtakes, so it is the same in all steps. Raises `ParameterError` if
        `places` is negative."""
        checked_int("places", places, 0)
        lane, cell = self.lane.astype(numpy.int64), self.cell.astype(numpy.int64)
        cars = cell.shape[-1]
        ring = numpy.argsort(lane * self.length + cell, axis=-1)  # the cars of each step, lane by lane and by cell
        lane_of_place, place = numpy.take_along_axis(lane, ring, axis=-1), numpy.arange(cars)
        on_lane_0 = (lane_of_place == 0).sum(axis=-1, keepdims=True)
        # The place of the first car of the lane, and the number of its cars.
        first = numpy.where(lane_of_place == 0, 0, on_lane_0)
        count = numpy.where(lane_of_place == 0, on_lane_0, cars - on_lane_0)
        leader_of_place = numpy.take_along_axis(ring, first + (place - first + places) % count, axis=-1)
        leader_of_car = numpy.empty_like(cell)
        numpy.put_along_axis(leader_of_car, ring, leader_of_place, axis=-1)
        return leader_of_car

    def gaps(self) -> Array:
        """The gap of each car: the empty cells up to the next car ahead on its lane, (x' - x - 1) mod `length` for the
        cells x and x' of both, 0 to `length` - 1. The gap of the only car on a lane is all other cells."""
        cell = self.cell.astype(numpy.int64)
        return (numpy.take_along_axis(cell, self.ahead(), axis=-1) - cell - 1) % self.length

    def space_headways(self) -> Array:
        """The space headway of each car: the cells from it to the next car ahead on its lane, 1 to `length`. It is the
        gap plus 1, so that its mean over the cars of a lane is 1 / density."""
        return self.gaps() + 1


@dataclass(frozen=True, eq=False, repr=False)
class Cars(OnRoad):
    """All cars after a step, in arrays of 64-bit integers, one number for each car. Cars keep their numbers from step
    to step; they are numbered from 0 by lane and cell in the first snapshot.

    `lane` is 0 or 1, and `cell` 0 to `length` - 1. `speed` is the number of cells that the car drove in this step (in
    the first snapshot: its speed there). `distance` is the cell in the first snapshot plus all speeds since, so that it
    is not wrapped round the ring."""

    step: int
    length: int
    lanes: int
    lane: Array
    cell: Array
    distance: Array
    speed: Array

    def __len__(self) -> int:
        return len(self.cell)

    def __repr__(self) -> str:
        return f"<{len(self)} cars, step {self.step}>"


def follow(snapshots: Iterable[Snapshot]) -> Iterator[Cars]:
    """Iterate over the cars in consecutive snapshots of one run, and keep only one step, for runs of any length:

        cars = trlab.follow(job.snapshots(first=1000))
        next(cars)  # no car has driven yet
        distance = sum(now.speed.sum() for now in cars)

    A car at speed v came from the cell v behind it, of its own lane or of the other one. If both cells were occupied,
    it came from its own lane, because a car changes lanes only if its side cell is empty. Raises `SnapshotsError` if
    steps are missing, if the cars of a snapshot do not come from those of the one before it, or if a car drove further
    than its gap."""
    cars: Optional[Cars] = None
    for snapshot in snapshots:
        cars = _first_cars(snapshot) if cars is None else _next_cars(cars, snapshot)
        yield cars


def _first_cars(snapshot: Snapshot) -> Cars:
    """The cars of the first snapshot, numbered by lane and cell."""
    lanes, length = len(snapshot.lanes), len(snapshot.lanes[0]) if snapshot.lanes else 0
    if not 1 <= lanes <= 2 or not length:
        raise SnapshotsError(
            f"the road of step {snapshot.step} has {lanes} lanes of {length} cells: a road has one or two"
        )
    place, speed = _cars_on(snapshot, lanes, length)
    lane, cell = numpy.divmod(place, length)
    return Cars(
        step=snapshot.step, length=length, lanes=lanes, lane=lane, cell=cell, distance=cell.copy(), speed=speed
    )


def _next_cars(before: Cars, snapshot: Snapshot) -> Cars:
    """The cars of the next snapshot, in the order of their numbers."""
    length, lanes = before.length, before.lanes
    if snapshot.step != before.step + 1:
        raise SnapshotsError(
            f"step {snapshot.step} follows step {before.step}, and cars can only be followed through every step: leave "
            "`every` at 1, and do not put parts of a run together"
        )
    place, speed = _cars_on(snapshot, lanes, length)
    lane, cell = numpy.divmod(place, length)
    origin, numbers = cell - speed, numpy.arange(len(before))
    # The number of the car that was in each cell, and -1 for an empty cell.
    car_in_cell = numpy.full(lanes * length, -1, dtype=numpy.int64)
    car_in_cell[before.lane * length + before.cell] = numbers
    car = car_in_cell[lane * length + origin % length]
    if lanes == 2:
        car = numpy.where(car >= 0, car, car_in_cell[(1 - lane) * length + origin % length])
    # A stable sort is fast here, because the numbers of most neighbouring cars are in order already.
    of_car = car.argsort(kind="stable")
    is_each_car_there = len(car) == len(before) and bool((car[of_car] == numbers).all())
    if not is_each_car_there or _is_too_fast(cell, origin, int((lane == 0).sum()), length):
        raise SnapshotsError(
            f"the cars of step {snapshot.step} do not come from those of step {before.step}: these are not snapshots "
            "of one run"
        )
    speed = speed[of_car]
    return Cars(
        step=snapshot.step, length=length, lanes=lanes, lane=lane[of_car], cell=cell[of_car],
        distance=before.distance + speed, speed=speed,
    )


class _PlacesAndSpeeds(NamedTuple):
    """The places of cars, which are the numbers of their cells, counted lane by lane; and their speeds."""

    place: Array
    speed: Array


def _cars_on(snapshot: Snapshot, lanes: int, length: int) -> _PlacesAndSpeeds:
    """The places and speeds of the cars of a snapshot. Raises `SnapshotsError` if its road has another size."""
    if [len(lane) for lane in snapshot.lanes] != lanes * [length]:
        raise SnapshotsError(f"the road of step {snapshot.step} has another size")
    speeds = numpy.frombuffer("".join(snapshot.lanes).encode().translate(NUMBERS), dtype=numpy.int8)
    place = (speeds != EMPTY).nonzero()[0]
    speed = speeds[place].astype(numpy.int64)
    if (speed < 0).any():
        raise SnapshotsError(f"a cell of step {snapshot.step} has a character that is neither a speed nor a dot")
    return _PlacesAndSpeeds(place, speed)


def _is_too_fast(cell: Array, origin: Array, on_lane_0: int, length: int) -> bool:
    """Whether a car drove further than its gap, so that it is not behind the cell from which the car ahead of it came.
    Cars are in the order of their lanes and cells, and the first `on_lane_0` of them are on lane 0."""
    for on_lane in slice(0, on_lane_0), slice(on_lane_0, None):
        now, then = cell[on_lane], origin[on_lane]
        # The first car of a lane is ahead of the last one.
        if len(now) and (now[-1] >= then[0] + length or (now[:-1] >= then[1:]).any()):
            return True
    return False
