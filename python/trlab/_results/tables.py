"""Tables: rows of counts, as lists of named tuples."""
from __future__ import annotations

from collections.abc import Iterable, Sequence
from html import escape
from itertools import chain
from math import nan
from typing import TYPE_CHECKING, Any, NamedTuple, TypeVar, Union

from .._renamed import IN_ROW, IN_TABLE, need_current_name
from .lists import ResultList
from .written_rows import WrittenRows, heading_of, read_rows

if TYPE_CHECKING:
    import numpy
    import pandas

    from .blocking import Blocking
    from .drift import Drift


class _Counted:
    """The values that follow from the counts of any row. All counts are for all lanes together."""

    __slots__ = ()
    cars: int
    cells: int
    steps: int
    distance: int
    stopped: int
    changes: int

    @property
    def density(self) -> float:
        """Cars per cell: cars / cells."""
        return self.cars / self.cells

    @property
    def flow(self) -> float:
        """Cars per step and lane: distance / (cells * steps). It is the mean over all cells of the cars that pass the
        end of the cell in a step, and equals density * speed (Edie 1963)."""
        return self.distance / (self.cells * self.steps)

    @property
    def speed(self) -> float:
        """The space-mean speed in cells per step: distance / (cars * steps), the mean over all cars, also stopped ones,
        and all steps. NaN without cars."""
        return self.distance / (self.cars * self.steps) if self.cars else nan

    @property
    def stopped_share(self) -> float:
        """The share of stopped cars, 0 to 1: stopped / (cars * steps). NaN without cars."""
        return self.stopped / (self.cars * self.steps) if self.cars else nan

    @property
    def change_rate(self) -> float:
        """Lane changes per car and step, 0 to 1: changes / (cars * steps). NaN without cars."""
        return self.changes / (self.cars * self.steps) if self.cars else nan

    def __getattr__(self, name: str) -> Any:
        need_current_name("a row", name, IN_ROW)
        raise AttributeError(f"a row has no {name!r}: its columns are {', '.join(getattr(type(self), '_fields'))}")


class _PointColumns(NamedTuple):
    """The columns of a sweep."""

    cars: int
    cells: int
    steps: int
    distance: int
    stopped: int
    changes: int
    flow_millionths: int


class Point(_PointColumns, _Counted):
    """A row of a sweep: the counts on one road during the `steps` measured steps.

    - `cars` on the road, and its `cells`, of all lanes together;
    - `distance`: the sum of the new speeds of all cars in all steps, in cells;
    - `stopped`: how often a car had the speed 0 after a step, in car-steps;
    - `changes`: how often a car changed lanes;
    - `flow_millionths`: the flow of the file, `distance * 1000000 / (cells * steps)`, rounded down. The exact value is
      `flow`."""

    __slots__ = ()


class _WindowColumns(NamedTuple):
    """The columns of a series."""

    step: int
    cars: int
    cells: int
    steps: int
    distance: int
    stopped: int
    changes: int
    flow_millionths: int
    cars0: int
    distance0: int
    stopped0: int
    cars1: int
    distance1: int
    stopped1: int


class Window(_WindowColumns, _Counted):
    """A row of a series: the counts of the `steps` steps that end with the snapshot of `step`, with the columns and
    properties of a `Point`. For lane 0, `cars0` counts its cars after each of these steps, in car-steps (unlike
    `cars`), `distance0` adds up their speeds, in cells, and `stopped0` counts those that are stopped, in car-steps. The
    last three columns are for lane 1. So cars0 + cars1 = cars * steps."""

    __slots__ = ()


def point_of(window: Window) -> Point:
    """The row of a sweep with the counts of a window."""
    return Point(*(getattr(window, name) for name in Point._fields))


Row = TypeVar("Row", Point, Window)

MAX_SHOWN = 10
"""The most rows that a notebook shows of a table."""


class Table(ResultList[Row]):
    """The rows of a table, as a list: points of a sweep or windows of a series, which `kind` says. A table that was
    read keeps its numbers as an array of 64-bit integers, so that `to_numpy()` and `to_pandas()` are fast, and rows are
    made when needed."""

    def __init__(self, kind: type[Row], rows: Iterable[Row] = ()) -> None:
        self.kind: type[Row] = kind
        self._held = rows if isinstance(rows, WrittenRows) else list(rows)

    def _like(self, items: Sequence[Row]) -> Table[Row]:
        return Table(self.kind, items)

    def __repr__(self) -> str:
        return f"<table of {len(self)} {self.kind.__name__}s>"

    def _repr_html_(self) -> str:
        """The first rows, for notebooks, with the columns of Python."""
        lines: list[tuple[object, ...]] = [self.kind._fields, *self[:MAX_SHOWN]]
        rows = "".join("<tr>" + "".join(f"<td>{cell}</td>" for cell in line) + "</tr>" for line in lines)
        return f"<table>{rows}</table><p>{escape(repr(self))}</p>"

    def __getattr__(self, name: str) -> Any:
        need_current_name("`Table`", name, IN_TABLE)
        raise AttributeError(f"a table has no attribute {name!r}")

    @classmethod
    def read(cls, kind: type[Row], text: Union[str, bytes]) -> Table[Row]:
        """Read the output of `trlab sweep` (`kind` is `Point`) or `trlab series` (`Window`). Raises `OutputFormatError`
        with the line if it is anything else, is cut off, or has an impossible row, for example no cells, more cars than
        cells, a distance that these cars cannot drive, a flow that contradicts the counts, or a missing window."""
        plain = text if isinstance(text, str) else text.decode("latin-1")
        return cls(kind, read_rows(kind, plain.replace("\r\n", "\n") if "\r" in plain else plain))

    def text(self) -> str:
        """The table as the program writes it, which `Table.read` reads if it is that of one sweep or series. In it the
        column `flow` is in millionths; to write a file for other programs, you should use
        `table.to_pandas().to_csv()`."""
        return heading_of(self.kind) + "".join(",".join(map(str, row)) + "\n" for row in self)

    def to_numpy(self) -> numpy.ndarray[Any, Any]:
        """An array of records of 64-bit integers with the columns of the rows: `table.to_numpy()["distance"]`."""
        from .arrays import numpy

        if isinstance(self._held, WrittenRows):
            numbers = numpy.array(self._held.numbers, dtype=numpy.int64)
        else:
            count = len(self) * len(self.kind._fields)
            numbers = numpy.fromiter(chain.from_iterable(self), dtype=numpy.int64, count=count)
        return numbers.view([(name, numpy.int64) for name in self.kind._fields])

    def to_pandas(self) -> pandas.DataFrame:
        """A frame of the exact counts, with `density`, `flow`, `speed`, `stopped_share` and `change_rate` (see
        `trlab.UNITS`). Without cars the last three are NaN."""
        from .._analysis.frames import frame_of_table

        return frame_of_table(self)

    def drift(self, column: str = "flow") -> Drift:
        """Whether a series still drifts: the test of Schruben, Singh and Tierney (1983), see `trlab.Drift`. `column` is
        `flow`, `speed`, `stopped_share`, `change_rate`, or a count that changes from window to window. Raises
        `EstimateError` unless the table has the consecutive windows of one run, at least 40 and equally long, and
        `ParameterError` for a column without such a value."""
        from .drift import drift_of_series

        return drift_of_series(self, column)

    def blocking(self, column: str = "flow") -> Blocking:
        """The mean of a column over the windows of one run, and a lower bound for its standard error, see
        `trlab.Blocking`: `job.series(every=10, first=1000).blocking("flow")`. For the error itself, repeat the run and
        take `trlab.means`. `column` is one of those of `drift`. Raises `EstimateError` unless the table has the
        consecutive windows of one run, at least 40 and equally long, and if the series drifts, and `ParameterError` for
        a column without such a value."""
        from .blocking import blocking_of_series

        return blocking_of_series(self, column)
