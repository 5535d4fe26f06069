"""Runs of jobs with more steps than one input can have: several inputs, each of which continues where the previous one
ended.

Each input begins with the last snapshot of the previous input, under the key that `Job.continued` derives. So the
snapshots depend only on the job, and never on the windows in which they are counted."""
from __future__ import annotations

from collections.abc import Callable, Iterator
from dataclasses import replace
from itertools import islice
from math import gcd
from typing import TYPE_CHECKING, NamedTuple

from .._errors import IncompleteOutputError
from .._results.possible import MILLION
from .._results.snapshots import Snapshot, snapshots_in
from .._results.tables import Table, Window
from .._runs.calls import ask_by_line
from .arguments import RunOptions, option
from .numbers import MAX_STEPS

if TYPE_CHECKING:
    from .jobs import Job


class _Part(NamedTuple):
    """A part of a long run: how many steps came before it, and the job that is its input."""

    offset: int
    job: Job


def _parts(job: Job, last_of: Callable[[Job], Snapshot]) -> Iterator[_Part]:
    """The inputs of a job in order; `last_of` returns the last snapshot of an input, and is called after it has run."""
    offset = 0
    while job.steps > MAX_STEPS:
        part = replace(job, steps=MAX_STEPS, at={step: rule for step, rule in job.at.items() if step < MAX_STEPS})
        yield _Part(offset, part)
        job = job.continued(last_of(part), steps=job.steps - MAX_STEPS)
        offset += MAX_STEPS
    yield _Part(offset, job)


def snapshots(job: Job, selected: RunOptions) -> Iterator[Snapshot]:
    """Iterate over the requested snapshots.

    The last snapshot of each input is needed too. So the program prints every snapshot whose step is a multiple of a
    number that divides `every`, `first` and the steps of an input."""
    options = ["--every", str(gcd(selected.every, selected.first, MAX_STEPS)), *option("workers", selected.workers, 1)]
    # The last snapshot so far, with which the next input begins.
    last_so_far: list[Snapshot] = []
    for offset, part in _parts(job, lambda _: last_so_far.pop()):
        for snapshot in snapshots_in(ask_by_line(["run", *options], part.text())):
            last_so_far[:] = [snapshot]
            # The first snapshot of a part is the last one of the part before it.
            step = offset + snapshot.step
            is_repeated = snapshot.step == 0 and offset > 0
            if not is_repeated and step >= selected.first and (step - selected.first) % selected.every == 0:
                yield snapshot._replace(step=step)


def windows(job: Job, selected: RunOptions) -> Iterator[Window]:
    """Iterate over the requested windows.

    Windows may begin in one input and end in the next one, so they are put together from narrower windows, whose width
    divides `every`, `first` and the steps of an input."""
    width = gcd(selected.every, selected.first, MAX_STEPS)
    return _joined(_narrow_windows(job, width, selected), selected.every // width)


def _narrow_windows(job: Job, width: int, selected: RunOptions) -> Iterator[Window]:
    """Iterate over the windows of `width` steps from the first step on."""
    for offset, part in _parts(job, lambda part_before: _last_snapshot(part_before, selected.workers)):
        if selected.first < offset + part.steps:
            first = max(0, selected.first - offset)
            options = ["--every", str(width), "--from", str(first), *option("workers", selected.workers, 1)]
            for window in windows_in(ask_by_line(["series", *options], part.text())):
                yield window._replace(step=offset + window.step)


def windows_in(lines: Iterator[str]) -> Iterator[Window]:
    """The windows in the output of `trlab series`, one by one. Raises `OutputFormatError` if it is anything else."""
    heading, columns = next(lines, ""), len(Window._fields)
    Table.read(Window, heading)
    for line in lines:
        numbers = line.split(",")
        if len(numbers) != columns or not line.endswith("\n"):
            # This raises the error with its reason.
            Table.read(Window, heading + line)
        yield Window._make(map(int, numbers))


def _last_snapshot(job: Job, workers: int) -> Snapshot:
    """The last snapshot of an input. The program prints no other one."""
    (last,) = job.snapshots(workers=workers, first=job.steps)
    return last


def _joined(narrow: Iterator[Window], count: int) -> Iterator[Window]:
    """Join every `count` consecutive windows into one."""
    for first in narrow:
        # One window after the other, because `count` windows can be too many for the memory.
        sums, last, joined = list(first), first, 1
        for last in islice(narrow, count - 1):
            sums = [total + number for total, number in zip(sums, last)]
            joined += 1
        if joined < count:
            raise IncompleteOutputError(f"the output of the series ends in the middle of a window, at step {last.step}")
        total = Window(*sums)
        flow = total.distance * MILLION // (last.cells * total.steps)
        yield total._replace(step=last.step, cars=last.cars, cells=last.cells, flow_millionths=flow)
