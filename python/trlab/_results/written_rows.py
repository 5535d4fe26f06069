"""The rows of a table, read from the text that the program wrote, and checked."""
from __future__ import annotations

import json
import re
import sys
from array import array
from collections.abc import Iterator, Sequence
from typing import Any

from .._errors import OutputFormatError
from .possible import first_fault, rows_in

BLOCK = 1 << 18
DIGITS = b"0123456789"
AS_ZEROS, AS_ZERO_OR_ONE = (bytes.maketrans(DIGITS, digits) for digits in (10 * b"0", b"0" + 9 * b"1"))
MAX_DIGITS = 18
"""Numbers with this number of digits are below 2**63. The program writes at most 13."""

TOO_LONG = (MAX_DIGITS + 1) * b"0"

HEADINGS = {"flow_millionths": "flow"}
"""The names of columns in files, if they differ from those in Python."""


class WrittenRows(Sequence[Any]):
    """The rows of a table that was read. Each is made at its first access. `numbers` are those of all rows, one after
    the other; `kind` is a named tuple of whole numbers."""

    def __init__(self, kind: Any, numbers: array[int]) -> None:
        self.kind, self.numbers, self.columns = kind, numbers, len(kind._fields)

    def __len__(self) -> int:
        return len(self.numbers) // self.columns

    def __iter__(self) -> Iterator[Any]:
        return map(self.kind._make, self.tuples())

    def tuples(self) -> Iterator[tuple[int, ...]]:
        """The rows as plain tuples."""
        return rows_in(self.numbers, self.columns)

    def __getitem__(self, place: Any) -> Any:
        chosen = range(len(self))[place]
        if isinstance(chosen, range):
            return [self[row] for row in chosen]
        return self.kind._make(self.numbers[self.columns * chosen:self.columns * (chosen + 1)])


def heading_of(kind: Any) -> str:
    """The first line of a table of these rows in a file."""
    return ",".join(HEADINGS.get(name, name) for name in kind._fields) + "\n"


def read_rows(kind: Any, text: str) -> WrittenRows:
    """The rows in the text of a table. Raises `OutputFormatError`, with the line, if the text has another heading, a
    line that is not a row, a last line without an end, or an impossible row (see `possible`)."""
    heading = heading_of(kind)
    if not text.startswith(heading):
        is_cut_off = heading.startswith(text)
        problem = "the table is cut off in" if is_cut_off else f"this is not the heading of {kind.__name__}s:"
        raise OutputFormatError(f"{problem} {_shown(text.split(chr(10), 1)[0])}")
    rows = WrittenRows(kind, array("q"))
    for block in _blocks(text, len(heading)):
        if not _is_of_rows(block, rows.columns):
            raise OutputFormatError(_fault(text, kind))
        rows.numbers.extend(_numbers(block[:-1].replace(b"\n", b",")))
    fault = first_fault(rows.numbers, rows.columns)
    if fault is not None:
        # Lines count from 1, and the first one is the heading.
        number, line = fault.row + 2, text.split("\n")[fault.row + 1]
        raise OutputFormatError(f"line {number} of the table is impossible: {_shown(line)}: {fault.contradiction}")
    return rows


def _blocks(text: str, begin: int) -> Iterator[bytes]:
    """The rows in blocks of whole lines."""
    while begin < len(text):
        end = text.rfind("\n", begin, begin + BLOCK) + 1 or text.find("\n", begin) + 1 or len(text)
        yield text[begin:end].encode("ascii", "replace")
        begin = end


def _is_of_rows(block: bytes, columns: int) -> bool:
    """Whether each line of the block has `columns` numbers, without leading zeros and not too many digits."""
    rows = (b"," * (columns - 1) + b"\n") * block.count(b"\n")
    if not block.endswith(b"\n") or block.translate(None, DIGITS) != rows:
        return False
    numbers = (b"," + block.replace(b"\n", b",")).translate(AS_ZERO_OR_ONE)
    if any(form in numbers for form in (b",,", b",00", b",01")):
        return False
    return TOO_LONG not in numbers.translate(AS_ZEROS)


def _numbers(block: bytes) -> array[int]:
    """The numbers between commas."""
    numpy = sys.modules.get("numpy")
    if numpy is None:
        return array("q", json.loads(b"[" + block + b"]"))
    return array("q", numpy.fromstring(block, dtype=numpy.int64, sep=",").tobytes())


def _fault(text: str, kind: Any) -> str:
    """Says which line is not a row."""
    number = "(?:0|[1-9][0-9]{0,%d})" % (MAX_DIGITS - 1)
    row = re.compile(number + f"(?:,{number}){{{len(kind._fields) - 1}}}")
    lines = text.split("\n")
    last = len(lines) - 1
    place = next((place for place in range(1, last) if not row.fullmatch(lines[place])), last)
    problem = f"is not a row of {kind.__name__}s" if place < last else "is cut off"
    return f"line {place + 1} of the table {problem}: {_shown(lines[place])}"


def _shown(line: str) -> str:
    """A line in a message, cut to a readable length."""
    return repr(line.rstrip("\n")[:80])
