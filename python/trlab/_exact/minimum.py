"""The minimum principle: how far each car goes without randomization, after any number of steps."""
from __future__ import annotations

from collections import deque
from collections.abc import Iterator, Sequence
from dataclasses import replace
from itertools import accumulate
from typing import NamedTuple, Optional

from .._errors import ParameterError
from .._inputs.jobs import Job
from .._inputs.numbers import MAX_ALL_STEPS, MAX_SPEED, checked_int, shown
from .._inputs.roads import SPEEDS, Road, lanes_of
from .rules import steps_to_accelerate


def minimum_principle(road: Road, limit: int, steps: int) -> list[int]:
    """How far the minimum principle lets each car go in `steps` steps, in cells: as far as the most restrictive of the
    cars ahead allows. After t steps this is

        min over j = 0 .. t of limit * (t - j) + R(j)

    where R(j) is the sum of j gaps of `road`: the gap of the car itself and those of the next j - 1 cars ahead, round
    the ring. Cars are numbered by lane and cell, as in `trlab.follow`. The work does not grow with `steps`.

    **For rules without lane changes this is an upper bound.** It is exact under `gap_rule`, and under `Nasch(0)` with
    limit 1 (rule 184). With larger limits it is exact under `Nasch(0)` if `road` is the road after step `limit` or a
    later one: `minimum_principle(snapshot.lanes, limit, steps)`.

    `road` is written as in a `Job`; its speeds do not matter. `limit` is 1 to 35 cells per step, and `steps` 0 to
    10**15. Raises `ParameterError` if this is not a road, or if a number is out of range.

    Source: Newell (1993, Transp. Res. B 27, 281) and Daganzo (2006, Transp. Res. B 40, 396). Proved as
    `minimum_principle`, clauses `gap`, `rule_184`, `later` and `bound`."""
    fastest = checked_int("limit", limit, 1, MAX_SPEED)
    time = checked_int("steps", steps, 0, MAX_ALL_STEPS)
    return [distance for lane in lanes_of(road, fastest) for distance in _distances_on(lane, fastest, time)]


def distances(job: Job, step: Optional[int] = None) -> list[int]:
    """How far each car of a job goes in the first `step` steps, in cells, by the `minimum_principle` and not by a
    simulation. The result is the same as `trajectories.distance[step] - trajectories.distance[0]`, with the same
    numbers of cars.

    The job must have one rule throughout, `gap_rule` or `Nasch(0)` (or `SlowToStart(0, 0)` or `Rickert(0, 0)`, which
    are the same). Under `Nasch(0)` with a limit above 1, the program runs the first `limit` steps, in which the cars
    accelerate, and the minimum principle does the rest.

    `step` is 0 to 10**15, by default the number of steps of the job, and may be later. Raises `ParameterError` for any
    other rule or number, and the errors of `Job.run` if the program is needed. Source and law: see
    `minimum_principle`."""
    if not isinstance(job, Job):
        raise ParameterError(f"distances are those of a job, not of {shown(job)}: `minimum_principle` takes a road")
    time = job.steps if step is None else checked_int("step", step, 0, MAX_ALL_STEPS)
    if len({job.rule, *job.at.values()}) > 1:
        raise ParameterError("exact distances need one rule throughout, and this job changes it (`at`)")
    simulated = min(steps_to_accelerate(job.rule, job.limit), time)
    if simulated == 0:
        return minimum_principle(job.lane_texts(), job.limit, time)
    roads = [snapshot.lanes for snapshot in replace(job, steps=simulated, at={}).run()]
    cells_driven: list[int] = []
    for number in range(len(roads[0])):
        cars = _driven([lanes[number] for lanes in roads])
        # The minimum principle numbers the cars of a lane by their cells on the road at which it begins.
        cells = sorted(car.cell for car in cars)
        later = dict(zip(cells, _distances_on(roads[-1][number], job.limit, time - simulated)))
        cells_driven += [car.distance + later[car.cell] for car in cars]
    return cells_driven


def positions(job: Job, step: Optional[int] = None) -> list[int]:
    """The cell of each car of a job after `step` steps, 0 to `length` - 1: its first cell plus its distance (see
    `distances`), round the ring. Cars keep their lanes and their numbers, which are by lane and cell at the start.
    Arguments and errors are those of `distances`."""
    lanes = job.lane_texts()
    first_cells = [cell for lane in lanes for cell in _cells_of(lane)]
    return [(cell + distance) % len(lanes[0]) for cell, distance in zip(first_cells, distances(job, step))]


def _cells_of(lane: str) -> list[int]:
    """The cells of the cars on a lane."""
    return [cell for cell, character in enumerate(lane) if character != "."]


class _Car(NamedTuple):
    """The cell of a car, and how many cells it has driven."""

    cell: int
    distance: int


def _driven(lanes: Sequence[str]) -> list[_Car]:
    """The cars of one lane after the last of successive snapshots, in the order of the first snapshot."""
    length = len(lanes[0])
    cars = [_Car(cell, distance=0) for cell in _cells_of(lanes[0])]
    for lane in lanes[1:]:
        # A car at speed v came from the cell v behind it.
        speeds = {cell: SPEEDS.index(lane[cell]) for cell in _cells_of(lane)}
        speed_from = {(cell - speed) % length: speed for cell, speed in speeds.items()}
        moves = [(car, speed_from[car.cell]) for car in cars]
        cars = [_Car((car.cell + speed) % length, car.distance + speed) for car, speed in moves]
    return cars


def _distances_on(lane: str, limit: int, time: int) -> list[int]:
    """The distances of the minimum principle on one lane.

    With P(i) the sum of the first i gaps, round the ring, R(j) of car x is P(x + j) - P(x). So the distance of x is
    limit * time - P(x) plus the minimum of P(i) - limit * i + limit * x for i from x to x + time."""
    cells = _cells_of(lane)
    cars, empty = len(cells), lane.count(".")
    if cars == 0:
        return []
    gaps = [(after - cell - 1) % len(lane) for cell, after in zip(cells, cells[1:] + cells[:1])]
    sums = [0, *accumulate(gaps[:-1])]

    def height(place: int) -> int:
        """P(i) - limit * i, for i as the place."""
        return place // cars * empty + sums[place % cars] - limit * place

    # A lap adds the same to every height, so only the first lap of a window counts if this is at least 0, or the last one.
    added_by_lap = empty - limit * cars
    if added_by_lap >= 0:
        first, last = 0, min(time, cars - 1)
    else:
        first, last = max(0, time - cars + 1), time
    lowest = _minima([height(place) for place in range(first, cars + last)], last - first + 1)
    return [limit * (time + car) - sums[car] + low for car, low in enumerate(lowest)]


def _minima(values: Sequence[int], size: int) -> Iterator[int]:
    """The minimum of each window of `size` successive values."""
    rising: deque[int] = deque()  # the places of values that are below all later ones of the window
    for place, value in enumerate(values):
        while rising and values[rising[-1]] >= value:
            rising.pop()
        rising.append(place)
        if rising[0] <= place - size:
            rising.popleft()
        if place >= size - 1:
            yield values[rising[0]]
