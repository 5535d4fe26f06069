"""Jobs: a road, a rule and a number of steps, and their results."""
from __future__ import annotations

import os
from collections.abc import Callable, Generator, Iterator, Mapping, Sequence
from contextlib import AbstractContextManager, closing, nullcontext
from dataclasses import dataclass, field
from typing import TYPE_CHECKING, Any, NamedTuple, Optional, Union, cast

from .._errors import IncompleteOutputError, ParameterError
from .._renamed import IN_JOB, need_current_name
from .._results.snapshots import Snapshot, Snapshots, snapshots_in
from .._results.tables import Table, Window
from .._runs.calls import ask, ask_by_line, ask_for_bytes
from .._runs.processes import set_to, setting
from . import long_jobs, reading
from .arguments import RunOptions, input_text
from .numbers import (
    MAX_ALL_STEPS, MAX_CELLS, MAX_SPEED, MAX_STEPS, Density, Key, cars_at, checked_int, checked_key, checked_share,
    derived_key, key_digits, shown, store,
)
from .roads import Road, cars_on, lanes_of, speeds_of
from .rules import Rule, Schedule, need_rule
from .states import InitialState, even, need_no_name, warn_of_uneven_lanes

if TYPE_CHECKING:
    import pandas


@dataclass(frozen=True)
class Job:
    """A road, a rule and a number of steps.

    The road has `lanes` lanes of `length` cells (at most 100,000). `cars` cars in total, or the number nearest to
    `density`, are placed in the initial state `start`. Or leave out these four, and pass the road itself as `start`:

    - the speeds by cell (cells per step; None, NaN or -1 for an empty cell), as a list or an array, or two of them for
      two lanes;
    - the characters of a file, for example `"0..3."`, or a list of two such strings, such as the `lanes` of a snapshot.

    A list of only 0 and 1 raises an error, because you may mean the number of cars by cell, while here 0 is a stopped
    car.

    `limit` is the maximum speed in cells per step, 1 to 35, and `key` the random seed (see `Key`). `at` maps steps to
    the rules that take over then. A job of more than 500,000 steps runs as several inputs, each of which continues the
    previous input.

    Numbers of other libraries, such as numpy, are stored as Python numbers, and a road as the characters of its lanes,
    with its `length` and `lanes`. Raises `ParameterError` if a parameter is wrong; booleans and members of an
    enumeration are not numbers. If the program rejects the job, `RejectedInputError` is raised when it runs."""

    limit: int
    rule: Rule
    steps: int
    length: Optional[int] = None
    lanes: int = 1
    cars: Optional[int] = None
    density: Optional[Density] = None
    start: Union[InitialState, Road] = even
    key: Key = 0
    at: Mapping[int, Rule] = field(default_factory=dict)

    def __post_init__(self) -> None:
        store(self, limit=checked_int("limit", self.limit, 1, MAX_SPEED))
        store(self, steps=checked_int("steps", self.steps, 0, MAX_ALL_STEPS))
        store(self, lanes=checked_int("lanes", self.lanes, 1, 2), key=checked_key(self.key), rule=need_rule(self.rule))
        store(self, at=Schedule(self.at, self.steps))
        if self.length is not None:
            store(self, length=checked_int("length", self.length, 1, MAX_CELLS))
        if not isinstance(self.start, InitialState):
            self._store_road()
            return
        self.start.need_limit(self.limit)
        if self.length is None:
            raise ParameterError("a job needs the length of its lanes, or a road as `start`")
        if (self.cars is None) == (self.density is None):
            raise ParameterError("a job needs either `cars` or `density`")
        if self.cars is not None:
            store(self, cars=checked_int("cars", self.cars, 0, self.cells()))
        else:
            store(self, density=checked_share("density", cast(Density, self.density)))
        warn_of_uneven_lanes(self.start, [self.count()], self.length, self.lanes)

    def _store_road(self) -> None:
        """Stores a road that was given as `start`, with its length and lanes."""
        need_no_name(self.start)
        road = lanes_of(self.start, self.limit)
        if self.cars is not None or self.density is not None:
            raise ParameterError("a road as `start` has its own cars: leave `cars` and `density` out")
        if self.length not in (None, len(road[0])) or self.lanes > len(road):
            raise ParameterError(
                f"a road as `start` has its own cells, here {len(road)} x {len(road[0])}: leave `length` and `lanes` "
                "out, or with `dataclasses.replace` set length=None and lanes=1"
            )
        store(self, start=road, length=len(road[0]), lanes=len(road))

    @classmethod
    def read(cls, path: Union[str, os.PathLike[str]]) -> Job:
        """Read a job file. The job has the same `.text()`, to the last byte, the road of the file as its `start`, and
        fractions as its probabilities. Raises `RejectedInputError` with the explanation if the program rejects the
        file, and `ParameterError` if the file is not in UTF-8 or does not end with a line feed."""
        return cls.from_text(reading.content_of(path, "Job"))

    @classmethod
    def from_text(cls, text: str) -> Job:
        """Make a job from a text that `.text()` returned, or from the content of a job file. Raises the errors of
        `read`."""
        reading.need_accepted("run", text)
        return reading.need_same(cls(**reading.job_of(text)), text)

    def road(self) -> list[list[Optional[int]]]:
        """The lanes at the start: speeds by cell, None for an empty cell."""
        return [speeds_of(lane) for lane in self.lane_texts()]

    def lane_texts(self) -> Sequence[str]:
        # The lanes at the start, as in the file.
        if isinstance(self.start, InitialState):
            return self.start.on_lanes(self.count(), cast(int, self.length), self.lanes, self.limit)
        return cast(Sequence[str], self.start)

    def cells(self) -> int:
        """The number of cells of all lanes."""
        return cast(int, self.length) * self.lanes

    def count(self) -> int:
        """The number of cars."""
        if not isinstance(self.start, InitialState):
            return cars_on(cast(Sequence[str], self.start))
        return self.cars if self.cars is not None else cars_at(cast(Density, self.density), self.cells())

    def text(self) -> str:
        """The job file. Raises `ParameterError` for more than 500,000 steps."""
        if self.steps > MAX_STEPS:
            raise ParameterError(
                f"a job file has at most {MAX_STEPS} steps, and this job has {self.steps}: "
                "`run`, `snapshots` and `series` run it as several inputs"
            )
        lines = ["road 1", f"key {key_digits(self.key)}", f"limit {self.limit}"]
        lines += [*(f"lane {lane}" for lane in self.lane_texts()), *self.rule.lines(), f"steps {self.steps}"]
        for step, rule in self.at.items():
            first, *others = rule.lines()
            lines += [f"at {step} {first}", *others]
        return input_text(lines)

    def run(self, *, every: int = 1, first: int = 0, workers: int = 1) -> Snapshots:
        """The snapshots of step 0 and after each step, or only of the steps `first`, `first + every` and so on. Other
        snapshots are never made, so a long run fits in memory:

            job.run(every=100, first=5000)

        `first` is at most `steps`, so that there is at least one snapshot. `workers` is the number of threads, 1 to 16;
        results do not depend on it. A wrong number raises `ParameterError` before anything runs."""
        options = RunOptions.of_snapshots(self.steps, every, first, workers)
        if self.steps > MAX_STEPS:
            return Snapshots(long_jobs.snapshots(self, options))
        return Snapshots.read(ask_for_bytes(["run", *options.arguments()], self.text()))

    def snapshots(self, *, every: int = 1, first: int = 0, workers: int = 1) -> Iterator[Snapshot]:
        """Iterate over the snapshots of `run` while the program runs, keeping only one. `every`, `first` and `workers`
        are as in `run`."""
        options = RunOptions.of_snapshots(self.steps, every, first, workers)
        if self.steps > MAX_STEPS:
            return long_jobs.snapshots(self, options)
        return snapshots_in(ask_by_line(["run", *options.arguments()], self.text()))

    def series(self, *, every: int = 1, first: int = 0, workers: int = 1) -> Table[Window]:
        """The counts of each window of `every` steps, from step `first` on, as `trlab series` writes them. The windows
        must fill the run: if `steps - first` is not a positive multiple of `every`, it raises `ParameterError` with
        numbers that fit. `workers` is the number of threads, as in `run`. A job of more than 500,000 steps takes about
        twice as long per step."""
        options = RunOptions.of_windows(self.steps, every, first, workers)
        if self.steps > MAX_STEPS:
            return Table(Window, long_jobs.windows(self, options))
        return Table.read(Window, ask(["series", *options.arguments()], self.text()))

    def time_until(self, condition: Callable[[Window], bool], *, every: int = 1, first: int = 0) -> Duration:
        """Run until `condition(window)` is true for a window of `every` steps, and no longer:

            job.time_until(lambda window: window.stopped > 0, every=10)

        `time` is the number of steps from step `first` to the end of this window, so its resolution is `every`. If the
        condition is false for every window, `time` is `steps - first`, and `observed` is False: the event takes longer
        than this run. `trlab.lifetime` estimates the mean of such times.

        The windows are those of `series`, and must fill the run. `condition` returns True or False; any other answer
        raises `ParameterError`. The output is cut off, and is therefore never kept in a cache of `trlab.results`."""
        if not callable(condition):
            raise ParameterError(f"`condition` must be a function of a window, not {shown(condition)}")
        options = RunOptions.of_windows(self.steps, every, first, 1)
        last = options.first
        with _without_cache(), closing(self._windows(options)) as windows:
            for window in windows:
                last = window.step
                if _is_true(condition(window)):
                    return Duration(last - options.first, True)
        if last != self.steps:
            raise IncompleteOutputError(f"the series ended after {last} of {self.steps} steps")
        return Duration(last - options.first, False)

    def _windows(self, options: RunOptions) -> Generator[Window, None, None]:
        """Iterate over the windows while the program runs."""
        if self.steps > MAX_STEPS:
            yield from long_jobs.windows(self, options)
        else:
            yield from long_jobs.windows_in(ask_by_line(["series", *options.arguments()], self.text()))

    def detectors(self, cells: Sequence[int], *, every: int, first: int = 0) -> pandas.DataFrame:
        """Detector tables of the run, window by window: a detector at the end of each of the `cells`, and windows of
        `every` steps from step `first` on, which must fill the run. Snapshots are not kept. `trlab.detectors` has the
        columns and the errors."""
        from .._analysis.detectors import detectors

        options = RunOptions.of_windows(self.steps, every, first, 1)
        return detectors(self.snapshots(first=options.first), cells, options.every)

    def continued(self, snapshot: Snapshot, key: Optional[Key] = None, steps: Optional[int] = None) -> Job:
        """A job that continues from `snapshot`, the last snapshot of this job or any other, for `steps` steps, by
        default as many as this job has. Its steps count from 0 again, and `at` is shifted to match.

        The default `key` is derived (see `Key`) from `trlab continued KEY STEP`, with the snapshot's step. This job's
        own key would draw the random numbers of its first steps again. Raises `ParameterError` if the step of the
        snapshot is not one of this job, or if its cars are faster than the limit.

            longer = job.continued(job.run()[-1], steps=1000).run()"""
        if not isinstance(snapshot, Snapshot):
            raise ParameterError(
                f"a job is continued from a snapshot, for example `job.run()[-1]`, not from {shown(snapshot)}"
            )
        past_steps = checked_int("the step of the snapshot", snapshot.step, 0, self.steps)
        further_steps = self.steps if steps is None else checked_int("steps", steps, 0, MAX_ALL_STEPS)
        end = past_steps + further_steps
        return Job(
            limit=self.limit,
            rule=self._rule_at(past_steps),
            steps=further_steps,
            start=tuple(snapshot.lanes),
            key=derived_key("continued", self.key, past_steps) if key is None else key,
            at={step - past_steps: rule for step, rule in self.at.items() if past_steps < step < end},
        )

    if not TYPE_CHECKING:

        def __getattr__(self, name: str) -> Any:
            need_current_name("a job", name, IN_JOB)
            raise AttributeError(f"a job has no attribute {name!r}")

    def _rule_at(self, step: int) -> Rule:
        """The rule that is in force at a step."""
        reached = [first for first in self.at if first <= step]
        return self.at[max(reached)] if reached else self.rule


class Duration(NamedTuple):
    """The number of steps until an event, and whether the event was observed. If not, the run ended before it: the time
    is censored, and the event takes longer."""

    time: int
    observed: bool


def _without_cache() -> AbstractContextManager[None]:
    """Calls of the program in this block run at once, and their outputs are not kept, because an output that is left
    early is incomplete."""
    current = setting()
    return nullcontext() if current is None else set_to(current._replace(cache=None))


def _is_true(result: Any) -> bool:
    """The result of a condition. Raises `ParameterError` if it is not a truth value of Python or numpy."""
    dtype_kind = getattr(getattr(result, "dtype", None), "kind", None)
    if not isinstance(result, bool) and not (dtype_kind == "b" and result.shape == ()):
        raise ParameterError(f"`condition` must return True or False, not {shown(result)}")
    return bool(result)
