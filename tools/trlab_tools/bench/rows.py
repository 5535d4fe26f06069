"""A row of the table, and the table as text: all of it as tab-separated values, a few rows of it in Markdown."""
import re
from collections.abc import Collection, Iterable
from typing import NamedTuple, Union

from . import measuring

OTHERS = ["plain", "interpreter", "floor", "numba", "NumPy"]
COLUMNS = ["what", "lanes", "cells", "cars", "trlab", "wall clock", *OTHERS, "beside", "wanted"]
# The columns and the rows of the page. A row is chosen by its subject, the cells of a lane and the cars.
COLUMNS_OF_PAGE = ["what", "lanes", "cells", "cars", "trlab", *OTHERS, "beside"]
NAMES_ON_PAGE = {"what": "run", "beside": "other results"}
ROWS_OF_PAGE = [
    ("`nasch 0`", 100000, 30000),
    ("`nasch 536870912`", 100000, 30000),
    ("`vdr 33554432 1610612736`", 100000, 30000),
    ("`rickert 536870912 1073741824`", 100000, 60000),
    ("`nasch 536870912`", 1000, 300),
    ("`nasch 536870912`", 100, 5),
    ("sweep of 7 points, `nasch 536870912`, 4 runners", 1000, 3500),
    ("`nasch 536870912`, 4 workers", 100000, 30000),
]
# The ratio behind a time, such as ` (0.85)`.
RATIO = re.compile(r" \(\d+\.\d+\)$")


class Programs(NamedTuple):
    """The programs that are measured, `plain` and `interpreter` also with eight words in parallel. The programs in numba and
    NumPy are commands, which are empty if Python lacks the package."""

    trlab: str
    plain: str
    interpreter: str
    wide_plain: str
    wide_interpreter: str
    numba: list[str]
    numpy: list[str]


class Row(NamedTuple):
    """A measurement: its subject; the lanes, their cells and all cars, if it is of a road; the nanoseconds per car and step of
    trlab and of other programs; further results; and the wanted values."""

    subject: str
    lanes: Union[int, str]
    cells: Union[int, str]
    cars: Union[int, str]
    times: dict[str, measuring.Time]
    beside: str = ""
    wanted: tuple[str, ...] = ()

    def ratio(self, other: str) -> float:
        """The CPU time of trlab over that of another program."""
        return self.times["trlab"].cpu / self.times[other].cpu

    def cell(self, column: str) -> str:
        """The text of a row in a column; empty if the row has no such value."""
        if column == "what":
            return self.subject
        if column in ("lanes", "cells", "cars", "beside"):
            return str(getattr(self, column))
        if column == "wanted":
            return ", ".join(self.wanted)
        if column == "wall clock":
            return f"{self.times['trlab'].clock:.1f}" if "trlab" in self.times else ""
        if column not in self.times:
            return ""
        return f"{self.times[column].cpu:.1f}" + ("" if column == "trlab" else f" ({self.ratio(column):.2f})")


def wanted_text(text: str, is_met: bool) -> str:
    """The text of a wanted value, with a remark if the row misses it."""
    return text if is_met else f"{text} (missed)"


def time_per_move(run: measuring.Time, start: measuring.Time, moves: int) -> measuring.Time:
    """The nanoseconds per car and step: the time of a run less that of a run of 0 steps, over its cars times its steps."""
    return measuring.Time((run.clock - start.clock) * 1e9 / moves, (run.cpu - start.cpu) * 1e9 / moves)


def heading(columns: Collection[str]) -> list[str]:
    """The first two lines of a table in Markdown."""
    return [line(columns), "|" + len(columns) * "---|"]


def line(cells: Iterable[str]) -> str:
    """A row of a table in Markdown."""
    return "| " + " | ".join(cells) + " |"


def rows_of(table: str) -> list[dict[str, str]]:
    """The rows of a printed table, each with its cells by column."""
    lines = [line.strip().strip("|").split(" | ") for line in table.splitlines() if line.startswith("| ")]
    rows = [[cell.strip() for cell in cells] for cells in lines]
    columns: list[str] = next((row for row in rows if row[0] == COLUMNS[0]), [])
    return [dict(zip(columns, row)) for row in rows if len(row) == len(columns) and row != columns]


def as_data(rows: list[dict[str, str]]) -> str:
    """All rows as tab-separated values below a heading. Ratios are left out, because they follow from the times."""
    columns = [column for column in COLUMNS if column in rows[0]]
    values = [[RATIO.sub("", row[column]).replace("`", "") for column in columns] for row in rows]
    return "\n".join(map("\t".join, [columns, *values])) + "\n"


def as_page(rows: list[dict[str, str]]) -> str:
    """The rows of the page in Markdown, below their heading, without columns that are empty."""
    by_key = {(row["what"], int(row["cells"] or 0), int(row["cars"] or 0)): row for row in rows}
    shown_rows = [by_key[key] for key in ROWS_OF_PAGE if key in by_key]
    columns = [column for column in COLUMNS_OF_PAGE if any(row.get(column) for row in shown_rows)]
    names = [NAMES_ON_PAGE.get(column, column) for column in columns]
    return "\n".join(heading(names) + [line(row[column] for column in columns) for row in shown_rows]) + "\n"
