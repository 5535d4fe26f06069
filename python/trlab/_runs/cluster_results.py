"""The results of a folder of inputs, each of which must be the complete table of its input."""
from __future__ import annotations

import re
from collections.abc import Iterator
from pathlib import Path
from typing import Any

from .._errors import ResultFilesError
from .._results.tables import Point, Table
from .cluster_files import RequestFile, content_of
from .parts import kind_of
from .requests import Request


def table_of(folder: Path, file: RequestFile) -> Table[Any]:
    """The table of a file. Raises `ResultFilesError` with its fault. An input without text is unknown."""
    content = _content_of_result(folder, file)
    try:
        table: Table[Any] = Table.read(kind_of(file.request.arguments), content)
    except (TypeError, ValueError) as error:
        raise ResultFilesError(f"{file.result} is damaged: {error}") from None
    if file.request.text:
        for difference in _differences(folder, file, table):
            raise ResultFilesError(f"{file.result} {difference}")
    return table


def _content_of_result(folder: Path, file: RequestFile) -> str:
    """The text of a result. Raises `ResultFilesError` if it is missing, unreadable or cut off."""
    try:
        content = (folder / file.result).read_bytes().decode()
    except FileNotFoundError:
        reason = content_of(folder / file.error)
        raise ResultFilesError(f"{file.result} is missing" + (f": {reason.strip()}" if reason else "")) from None
    except UnicodeDecodeError:
        raise ResultFilesError(f"{file.result} is not a text") from None
    except OSError as error:
        raise ResultFilesError(f"{file.result} cannot be read: {error.strerror}") from None
    if not content.endswith("\n"):
        raise ResultFilesError(f"{file.result} is {'cut off in the middle of a line' if content else 'empty'}")
    return content


def _differences(folder: Path, file: RequestFile, table: Table[Any]) -> Iterator[str]:
    """Why a table is not that of its input, as the end of a sentence."""
    if content_of(folder / file.input) not in (None, file.request.text):
        yield f"is the result of another input, {file.input}"
    if table.kind is Point:
        yield from _differences_of_points(file.request.text, table)
    else:
        yield from _differences_of_windows(file.request, table)


def _differences_of_points(text: str, table: Table[Any]) -> Iterator[str]:
    """Why the table of a sweep is not that of its input."""
    counts = [int(number) for number in re.findall("^cars ([0-9]+)$", text, re.M)]
    length, lanes, measure = (int(number) for number in re.findall("^(?:length|lanes|measure) ([0-9]+)$", text, re.M))
    if len(table) < len(counts):
        yield f"is short: it has {len(table)} of {len(counts)} points"
    expected = [(cars, length * lanes, measure) for cars in counts]
    if [(row.cars, row.cells, row.steps) for row in table] != expected:
        yield "has other points than its sweep"


def _differences_of_windows(request: Request, table: Table[Any]) -> Iterator[str]:
    """Why the table of a series is not that of its input."""
    steps, ends = request.steps(), [row.step for row in table]
    if not ends or ends[-1] + table[-1].steps <= steps:
        yield f"is short: its last window ends after {ends[-1] if ends else 0} of {steps} steps"
    if ends[-1] > steps or any(end + row.steps != row.step for end, row in zip(ends, table[1:])):
        yield "has other windows than its job"
    lanes = re.findall("^lane (.+)$", request.text, re.M)
    cells, cars = sum(map(len, lanes)), sum(len(lane) - lane.count(".") for lane in lanes)
    if any((row.cells, row.cars) != (cells, cars) for row in table):
        yield "has another road than its job"
    every, first = request.windows()
    has_options = len(request.arguments) > 1
    if has_options and (table[0].steps != every or ends[0] != first + every):
        yield f"has other windows than `{request}`"
