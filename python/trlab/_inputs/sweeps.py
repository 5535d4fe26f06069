"""Sweeps: roads of equal shape with the same rule, one for each number of cars."""
from __future__ import annotations

import os
from collections.abc import Iterable, Iterator, Mapping, Sequence, Set
from dataclasses import dataclass, replace
from typing import Any, Optional, Union, cast

from .._errors import ParameterError
from .._results.tables import Point, Table, point_of
from .._runs.calls import ask
from . import reading
from .arguments import input_text, option
from .jobs import Job
from .numbers import (
    MAX_ALL_STEPS, MAX_CELLS, MAX_POINTS, MAX_SPEED, MAX_STEPS, MAX_THREADS, Density, Key, cars_at, checked_int,
    checked_key, checked_share, derived_key, key_digits, shown, store,
)
from .roads import Road, cars_on, roads_of
from .rules import Rule, need_rule
from .states import InitialState, even, need_no_name, no_warning_of_lanes, warn_of_uneven_lanes


@dataclass(frozen=True)
class Sweep:
    """Roads of equal shape with the same rule: one point for each number in `cars`, or for each density in `densities`.
    There is no limit on points and steps.

    Each point runs `warm` steps that are not counted, then `measure` steps that are. `limit` is the maximum speed in
    cells per step, `length` the cells per lane, and `key` the random seed (see `Key`). Equal numbers of cars are
    repetitions: each point draws its own random numbers.

    `start` is the initial state of every point:

    - `even`: evenly spaced and stopped, as in `trlab sweep`;
    - `random_cells(seed)`: random cells, drawn again for each point;
    - `jammed` or `moving`;
    - a list of roads, one per point, each written as in a `Job`, with `lanes` lanes of `length` cells (leave out
      `cars` and `densities`). For 20 repetitions of one road write `20 * [road]`.

    **An even initial state biases the mean** for thousands of steps, by up to 0.3 percent with `warm=3000` (see
    docs/STUDIES.md). If the third digit matters, sweep from `random_cells` states too and choose a `warm` for which
    they agree.

    An even sweep of at most 200 points and 500,000 steps in total is a single input, `.text()`; a larger sweep runs as
    its `.parts()`. From any other state, or if `warm + measure` is above 500,000, every point is a job of `.jobs()`.

    Numbers are checked and stored as in a `Job`. Raises `ParameterError` if a parameter is wrong."""

    limit: int
    rule: Rule
    length: int
    warm: int
    measure: int
    lanes: int = 1
    cars: Optional[Sequence[int]] = None
    densities: Optional[Sequence[Density]] = None
    key: Key = 0
    start: Union[InitialState, Sequence[Road]] = even

    def __post_init__(self) -> None:
        store(self, limit=checked_int("limit", self.limit, 1, MAX_SPEED))
        store(self, length=checked_int("length", self.length, 1, MAX_CELLS))
        store(self, lanes=checked_int("lanes", self.lanes, 1, 2), key=checked_key(self.key), rule=need_rule(self.rule))
        store(self, warm=checked_int("warm", self.warm, 0, MAX_ALL_STEPS // 2))
        store(self, measure=checked_int("measure", self.measure, 1, MAX_ALL_STEPS // 2))
        if self.cars is not None:
            store(self, cars=tuple(checked_int("cars", cars, 0, self.cells()) for cars in _listed("cars", self.cars)))
        if self.densities is not None:
            densities = _listed("densities", self.densities)
            shares = [checked_share("a density of `densities`", density) for density in densities]
            store(self, densities=tuple(shares))
        if not isinstance(self.start, InitialState):
            need_no_name(self.start)
            if not (self.cars is None and self.densities is None):
                raise ParameterError("roads as `start` have their own cars: leave `cars` and `densities` out")
            store(self, start=roads_of(self.start, self.length, self.lanes, self.limit))
        else:
            self.start.need_limit(self.limit)
            if (self.cars is None) == (self.densities is None):
                raise ParameterError("a sweep needs either `cars` or `densities`")
        if not self.counts():
            raise ParameterError("a sweep needs at least one point")
        warn_of_uneven_lanes(self.start, self.counts(), self.length, self.lanes)

    @classmethod
    def read(cls, path: Union[str, os.PathLike[str]]) -> Sweep:
        """Read a sweep file: a sweep with the same `.text()`, to the last byte. Its probabilities are fractions. Raises
        `RejectedInputError` with the explanation if the program rejects the file, and `ParameterError` if the file is
        not UTF-8 or does not end with a line feed."""
        return cls.from_text(reading.content_of(path, "Sweep"))

    @classmethod
    def from_text(cls, text: str) -> Sweep:
        """Make a sweep from a text that `.text()` returned, or from the content of a sweep file. Raises the errors of
        `read`."""
        reading.need_accepted("sweep", text)
        return reading.need_same(cls(**reading.sweep_of(text)), text)

    def cells(self) -> int:
        """The number of cells of all lanes of a road."""
        return self.length * self.lanes

    def counts(self) -> list[int]:
        """The number of cars of each point."""
        if not isinstance(self.start, InitialState):
            return [cars_on(road) for road in cast(Sequence[Sequence[str]], self.start)]
        if self.cars is not None:
            return list(self.cars)
        return [cars_at(density, self.cells()) for density in cast(Sequence[Density], self.densities)]

    def is_of_jobs(self) -> bool:
        """Whether the points do not fit in sweep files, so that each of them is a job of `.jobs()`."""
        return self.start != even or self.warm + self.measure > MAX_STEPS

    def text(self) -> str:
        """The sweep file. Raises `ParameterError` if the sweep is not a single input, and says which method to use."""
        self._need_one_input()
        lines = ["sweep 1", f"key {key_digits(self.key)}", f"limit {self.limit}", f"length {self.length}"]
        lines += [f"lanes {self.lanes}", *self.rule.lines(), f"warm {self.warm}", f"measure {self.measure}"]
        return input_text(lines + [f"cars {cars}" for cars in self.counts()])

    def _need_one_input(self) -> None:
        """Raises `ParameterError` if the sweep is not a single input, with the method to use."""
        steps, count = self.warm + self.measure, len(self.counts())
        if self.start != even:
            raise ParameterError("a sweep file begins with evenly spaced cars, but this sweep does not: use `jobs()`")
        if steps > MAX_STEPS:
            raise ParameterError(
                f"a point of a sweep file has at most {MAX_STEPS} steps, and this has {steps}: use `jobs()`"
            )
        if count > self._points_of_input():
            raise ParameterError(
                f"a sweep file has at most {MAX_POINTS} points and {MAX_STEPS} steps of all points together, "
                f"and this sweep has {count} points of {steps} steps: use `parts()`"
            )

    def _points_of_input(self) -> int:
        """How many points of this sweep one input can have."""
        return min(MAX_POINTS, MAX_STEPS // (self.warm + self.measure))

    def parts(self) -> list[Sweep]:
        """This sweep, split into the largest sweeps that fit into one input. The first has this sweep's key. Part n,
        from 1 on, has the key derived from `trlab part KEY n`, because point i of an input draws the random numbers of
        road i. Raises `ParameterError` if the points are jobs."""
        if self.is_of_jobs():
            raise ParameterError("the points of this sweep are jobs: use `jobs()`")
        counts, size = self.counts(), self._points_of_input()
        groups = [counts[first : first + size] for first in range(0, len(counts), size)]
        keys = [self.key, *(derived_key("part", self.key, number) for number in range(1, len(groups)))]
        with no_warning_of_lanes():
            return [replace(self, cars=group, densities=None, key=key) for group, key in zip(groups, keys)]

    def jobs(self) -> list[Job]:
        """One job per point, of `warm + measure` steps: its `series(every=measure, first=warm)` is the point's row.
        Point i, from 0 on, has the key derived from `trlab point KEY i`. The seed of `random_cells(seed)` is derived
        from `trlab seed SEED i`, read as a hexadecimal number. Jobs of an even sweep draw other random numbers than its
        `.text()`."""
        steps = self.warm + self.measure
        with no_warning_of_lanes():
            return [
                Job(limit=self.limit, rule=self.rule, steps=steps, key=derived_key("point", self.key, number), **state)
                for number, state in enumerate(self._initial_states())
            ]

    def _initial_states(self) -> Iterator[dict[str, Any]]:
        """The parameters of a job that describe the road of each point."""
        if not isinstance(self.start, InitialState):
            yield from ({"start": road} for road in self.start)
            return
        for number, cars in enumerate(self.counts()):
            yield {"length": self.length, "lanes": self.lanes, "cars": cars, "start": self.start.of_point(number)}

    def sweep(self, *, runners: int = 1, workers: int = 1) -> Table[Point]:
        """The table, one row per point, in order. `runners` points, 1 to 16, run at a time, each with `workers`
        threads, 1 to 16, which does not change the table. Raises `ParameterError` for a wrong number before anything
        runs, and `RejectedInputError` if the program rejects the input."""
        runners = checked_int("runners", runners, 1, MAX_THREADS)
        workers = checked_int("workers", workers, 1, MAX_THREADS)
        if self.is_of_jobs():
            return self._table_of_jobs(runners, workers)
        options = option("runners", runners, 1) + option("workers", workers, 1)
        tables = [Table.read(Point, ask(["sweep", *options], part.text())) for part in self.parts()]
        return Table(Point, [point for table in tables for point in table])

    def _table_of_jobs(self, runners: int, workers: int) -> Table[Point]:
        # `many` imports jobs and sweeps, so it is imported only when it is needed.
        from .._runs.many import run_all

        def point(job: Job) -> Point:
            """The row of a point."""
            (window,) = job.series(every=self.measure, first=self.warm, workers=workers)
            return point_of(window)

        return Table(Point, run_all(self.jobs(), point, at_once=runners))


def _listed(name: str, values: object) -> list[Any]:
    """The values of the points; raises `ParameterError` if they are not a list."""
    is_list = isinstance(values, Iterable) and not isinstance(values, (str, bytes, bytearray, Mapping, Set))
    if not is_list or getattr(values, "shape", None) == ():
        raise ParameterError(f"{name} must be a list with a number for each point, not {shown(values)}")
    return list(cast(Iterable[Any], values))
