"""The numbers of a counterexample: runs of the program on few cells, and stationary states of few cells.

The expressions of false_statements/ use the names of this module and of the first run, with the symbols of docs/LAWS.md."""
import itertools
from collections.abc import Callable, Iterable, Iterator
from math import comb
from typing import NamedTuple, Optional, Union

from .. import program
from ..oracle import traffic
from .false_statements.statement import Job, Sweep

# Whether each cell of a ring has a car, and the weight of a ring for a probability of braking.
Ring = tuple[int, ...]
Weight = Callable[[int, Ring], int]

# The probabilities 1 and 1/4, in multiples of 1 / 2**31.
C, P = 2 ** 31, 2 ** 29
# Every state of a cell with its neighbours: behind, own, ahead.
neighbourhoods = list(itertools.product((0, 1), repeat=3))
# Two cars on six cells with gaps of two cells.
THIRDS = {(1, 0, 0) * 2, (0, 1, 0) * 2, (0, 0, 1) * 2}
# The columns of a series with the distance, the stopped cars and the lane changes.
SUMMED_COLUMNS = 4, 5, 6


def key_text(key: int) -> str:
    """The line `key` of a key."""
    return f"key {key:064d}"


def output(words: list[str], lines: list[str]) -> list[str]:
    """The lines that the program prints for an input."""
    status, text = program.run(words, "\n".join(lines + [""]).encode())
    if status != program.DONE:
        raise SystemExit(f"status {status}: {' / '.join(lines)}")
    return text.decode().splitlines()


class Counts:
    """The counts of a run or a point of a sweep, by the symbols of docs/LAWS.md."""

    def __init__(
        self, limit: int, warm: int, cars: int, cells: int, steps: int, distance: int, stopped: int, changes: int
    ) -> None:
        self.v, self.warm, self.N, self.n, self.E, self.T = limit, warm, cars, cells, cells - cars, steps
        self.D, self.S, self.L = distance, stopped, changes


class Point(Counts):
    """The point of a sweep."""

    def __init__(self, sweep: Sweep) -> None:
        lines = ["sweep 1", key_text(0), f"limit {sweep.limit}", f"length {sweep.cells}", "lanes 1", f"rule {sweep.rule}",
                 f"warm {sweep.warm}", f"measure {sweep.measure}", f"cars {sweep.cars}"]
        *numbers, self.flow = map(int, output(["sweep"], lines)[1].split(","))
        super().__init__(sweep.limit, sweep.warm, *numbers)


class Run(Counts):
    """A run of a job: its rows, and its cars in the order of their first cells, if it has one lane."""

    def __init__(self, job: Job) -> None:
        lines = ["road 1", key_text(job.key), f"limit {job.limit}", *(f"lane {lane}" for lane in job.lanes),
                 *f"rule {job.rule}".split("\n"), f"steps {job.steps}"]
        self.key = job.key
        self.rows: list[list[str]] = []
        for line in output(["run"], lines):
            if line.startswith("step"):
                self.rows.append([])
            else:
                self.rows[-1].append(line)
        counted_windows = [line.split(",") for line in output(["series"], lines)[1:]][job.warm:]
        sums = [sum(int(window[column]) for window in counted_windows) for column in SUMMED_COLUMNS]
        cells = sum(map(len, job.lanes))
        cars = cells - "".join(job.lanes).count(".")
        super().__init__(job.limit, job.warm, cars, cells, job.steps - job.warm, *sums)
        self.places = [[cell for cell, character in enumerate(job.lanes[0]) if character != "."]]
        for row, *_ in self.rows[1:] if len(job.lanes) == 1 else ():
            self.places.append(self.places_after(self.places[-1], row))

    def places_after(self, places: list[int], row: str) -> list[int]:
        """The cells of the cars after a step with this row, from those before it."""
        speeds = {cell: int(character) for cell, character in enumerate(row) if character != "."}
        cell_by_origin = {(cell - speed) % self.n: cell for cell, speed in speeds.items()}
        return [cell_by_origin[cell] for cell in places]

    def speeds(self, step: int) -> list[int]:
        """The speed of each car."""
        return [int(self.rows[step][0][cell]) for cell in self.places[step]]

    def next_car(self, step: int) -> list[int]:
        """For each car the number of the next car ahead."""
        places = self.places[step]
        ring = sorted(places)
        cells_ahead = dict(zip(ring, ring[1:] + ring[:1]))
        return [places.index(cells_ahead[cell]) for cell in places]

    def gaps(self, step: int) -> list[int]:
        """The gap of each car."""
        places = self.places[step]
        return [(places[ahead] - cell - 1) % self.n for cell, ahead in zip(places, self.next_car(step))]

    def gone(self, step: int) -> list[int]:
        """The distance that each car has gone by a step."""
        speeds_by_step = [self.speeds(earlier) for earlier in range(1, step + 1)]
        return [sum(speeds) for speeds in zip(*speeds_by_step)] or [0] * self.N

    def minimum(self, steps: int, last: Optional[int] = None, start: int = 0) -> list[int]:
        """How far the minimum principle lets each car go in these steps from step `start` on, by the cars 0 to `last` ahead."""
        gaps, ahead = self.gaps(start), self.next_car(start)

        def bound(car: int, number: int) -> int:
            """The bound by the car that is the one of this number ahead."""
            room = 0
            for _ in range(number):
                room += gaps[car]
                car = ahead[car]
            return self.v * (steps - number) + room

        numbers = range((steps if last is None else last) + 1)
        return [min(bound(car, number) for number in numbers) for car in range(self.N)]

    def occupied(self, step: int, lane: int = 0) -> str:
        """The pattern of occupied cells."""
        return "".join("." if character == "." else "#" for character in self.rows[step][lane])

    def moved(self, before: int, after: int, ahead: int) -> bool:
        """Whether the pattern of step `after` is that of step `before`, moved ahead by this number of cells."""
        old, new = self.occupied(before), self.occupied(after)
        return all(new[(cell + ahead) % len(old)] == character for cell, character in enumerate(old))

    def rotated(self, step: int, cells: int) -> list[str]:
        """The row of a step in which each cell is the one that was this many cells ahead."""
        return [lane[cells:] + lane[:cells] for lane in self.rows[step]]

    def neighbours(self, step: int, state: str) -> int:
        """The number of pairs of neighbouring cells that are both occupied (#) or both empty (.)."""
        row = self.occupied(step)
        return sum(row[cell] == row[cell - 1] == state for cell in range(len(row)))

    def cars_on(self, step: int, lane: int) -> int:
        """The number of cars on a lane."""
        return self.occupied(step, lane).count("#")

    def cars_ahead(self, step: int, cell: int, cells: int) -> int:
        """The number of cars in this many cells ahead of a cell."""
        row = self.occupied(step)
        return sum(row[(cell + distance) % self.n] == "#" for distance in range(1, cells + 1))

    def count(self, cell: int) -> int:
        """The number of passages at the end of a cell in the counted steps."""
        passages = 0
        for step in range(self.warm + 1, len(self.rows)):
            for place, speed in zip(self.places[step], self.speeds(step)):
                passages += (cell - place + speed) % self.n < speed
        return passages

    def braked(self, probability: int, with_gap: bool = False) -> int:
        """How often random word 0 calls for braking with this probability, in multiples of 1 / 2**31: for all cars, or only
        for those with a gap."""
        count = 0
        for step in range(self.warm, self.warm + self.T):
            for car, gap in enumerate(self.gaps(step) if with_gap else [1] * self.N):
                count += gap > 0 and word(self.key, car, step, 0) // 2 < probability
        return count


def word(key: int, car: int, step: int, number: int) -> int:
    """The random word of a car in a step with this number."""
    return traffic.random_words(bytes.fromhex(f"{key:064d}"), car, step)[number]


def state(rule: int, behind: int, own: int, ahead: int) -> int:
    """The next state of a cell in one of Wolfram's elementary automata."""
    return rule >> (4 * behind + 2 * own + ahead) & 1


def elementary(rule: int, pattern: str) -> str:
    """The next pattern in one of Wolfram's elementary automata."""
    row = [cell == "#" for cell in pattern]
    ahead = row[1:] + row[:1]
    return "".join(".#"[state(rule, row[cell - 1], own, ahead[cell])] for cell, own in enumerate(row))


def holes(pattern: str) -> str:
    """The mirrored complement of a pattern: a car for each empty cell, from the other end."""
    return "".join(".#"[cell == "."] for cell in reversed(pattern))


def ring_step(pattern: str, brakes: bool) -> str:
    """The next pattern with limit 1 of a ring with one car, which brakes or not."""
    return pattern if brakes else pattern[-1] + pattern[:-1]


def rings(cells: int, cars: int) -> list[Ring]:
    """All rings with these numbers of cells and cars."""
    return [ring for ring in itertools.product((0, 1), repeat=cells) if sum(ring) == cars]


def free(ring: Ring) -> int:
    """The number of cars with an empty cell ahead."""
    return sum(own and not ahead for own, ahead in zip(ring, ring[1:] + ring[:1]))


def weight(p: int, ring: Ring) -> int:
    """The stationary weight of a ring, times a power of C that makes it whole."""
    product: int = p ** (sum(ring) - free(ring)) * C ** free(ring)
    return product


def usual(p: int, cars: int, braking: int) -> int:
    """The weight of a step in which this number of cars brakes, by independent random numbers."""
    product: int = p ** braking * max(C - p, 0) ** (cars - braking)
    return product


class RingStep(NamedTuple):
    """A step of a ring: the next ring, the number of cars that brake, and how far all go."""

    after: Ring
    brakes: int
    distance: int


def steps_of(ring: Ring) -> Iterator[RingStep]:
    """The steps of a ring, one for each set of braking cars."""
    cells = [cell for cell, own in enumerate(ring) if own]
    for brakes in itertools.product((0, 1), repeat=len(cells)):
        moves = [not ring[(cell + 1) % len(ring)] and not brake for cell, brake in zip(cells, brakes)]
        after = {(cell + is_moving) % len(ring) for cell, is_moving in zip(cells, moves)}
        yield RingStep(tuple(int(cell in after) for cell in range(len(ring))), sum(brakes), sum(moves))


def is_stationary(
    cells: int, cars: int, weights: Weight, p: int = P, braking: Callable[[int, int, int], int] = usual, factor: int = 1
) -> bool:
    """Whether a step leaves the weights of all rings as they are."""
    sums = dict.fromkeys(rings(cells, cars), 0)
    for old in sums:
        for step in steps_of(old):
            sums[step.after] += weights(p, old) * braking(p, cars, step.brakes)
    return all(total == factor * C ** cars * weights(p, new) for new, total in sums.items())


def is_proportional(cells: int, cars: int, weights: Weight, p: int) -> bool:
    """Whether weights of rings are proportional to the stationary weights."""
    pairs = itertools.product(rings(cells, cars), repeat=2)
    return all(weights(p, one) * weight(p, other) == weights(p, other) * weight(p, one) for one, other in pairs)


def steps_from(p: int, ring: Ring) -> int:
    """The weights of all steps from a ring, added up."""
    return sum(usual(p, sum(ring), step.brakes) for step in steps_of(ring))


def clustered(cars: int, empty: int, clusters: int) -> int:
    """The number of rings with this number of clusters."""
    return sum(free(ring) == clusters for ring in rings(cars + empty, cars))


def distances(p: int, cells: int, cars: int) -> int:
    """The weights of all rings times the mean distances of a step, times C ** cars."""
    steps = [(ring, step) for ring in rings(cells, cars) for step in steps_of(ring)]
    return sum(weight(p, ring) * usual(p, cars, step.brakes) * step.distance for ring, step in steps)


def names_of(runs: Iterable[Union[Job, Sweep]]) -> dict[str, object]:
    """The names that expressions of a counterexample may use: the numbers of the first run, and all runs as a, b, .."""
    results = [Run(run) if isinstance(run, Job) else Point(run) for run in runs]
    names: dict[str, object] = {**globals(), "comb": comb, **dict(zip("abcd", results))}
    if results:
        names.update((name, getattr(results[0], name)) for name in dir(results[0]) if not name.startswith("_"))
    return names
