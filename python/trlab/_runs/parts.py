"""Inputs as files: the request or requests of an input, and the table that joins their outputs."""
from __future__ import annotations

from collections.abc import Sequence
from typing import Any, Union

from .._errors import ParameterError
from .._inputs.jobs import Job
from .._inputs.numbers import MAX_STEPS
from .._inputs.states import even
from .._inputs.sweeps import Sweep
from .._results.tables import Point, Table, Window, point_of
from .requests import Request


def requests_of(input: Union[Job, Sweep], arguments: Sequence[str]) -> list[Request]:
    """The requests of a job for these arguments, or of a sweep. A sweep that is not a single file gives several: its
    parts, or the jobs of its points, whose series have a single window each."""
    if isinstance(input, Job):
        return [_request_of(input, arguments)]
    if not isinstance(input, Sweep):
        raise ParameterError(f"an input is a Job or a Sweep, not {input!r}")
    if arguments[:1] != ["sweep"]:
        raise ParameterError(f'a sweep needs words that begin with "sweep", not {list(arguments)}')
    if input.start == even and input.warm + input.measure <= MAX_STEPS:
        return [Request(tuple(arguments), part.text()) for part in input.parts()]
    if len(arguments) > 1:
        options = " ".join(arguments[1:])
        raise ParameterError(f"the points of this sweep are jobs, which have no options: leave out {options}")
    window = ("series", "--every", str(input.measure), "--from", str(input.warm))
    return [Request(window, job.text()) for job in input.jobs()]


def _request_of(job: Job, arguments: Sequence[str]) -> Request:
    """The request of a job."""
    if arguments[:1] not in (["run"], ["series"]):
        raise ParameterError(f'a job needs words that begin with "run" or "series", not {list(arguments)}')
    request = Request(tuple(arguments), job.text())
    need_whole_windows(request)
    return request


def need_whole_windows(request: Request) -> None:
    """Raises `ParameterError` if the output of a job has no rows, or if a series drops steps at the end."""
    every, first = request.windows()
    counted = request.steps() - first
    command = request.arguments[0]
    has_no_row, has_rest = counted < 0, counted == 0 or counted % every
    if command != "sweep" and has_no_row or command == "series" and has_rest:
        raise ParameterError(
            f"the {counted} steps from step {first} on are not whole windows of {every} steps: {request}"
        )


def kind_of(arguments: Sequence[str]) -> Any:
    """The kind of rows that the program writes for these arguments."""
    return Point if arguments[0] == "sweep" else Window


def joined(kind: Any, tables: Sequence[Table[Any]]) -> Table[Any]:
    """The table of all parts of an input. A point of a sweep may have been a window."""
    if len(tables) == 1 and tables[0].kind is kind:
        return tables[0]
    rows = [row for table in tables for row in table]
    if kind is Point:
        rows = [point_of(row) if isinstance(row, Window) else row for row in rows]
    return Table(kind, rows)
