"""The rows of one result, checked against the input that gave it."""
from __future__ import annotations

from collections.abc import Hashable, Iterable, Mapping, Sequence
from numbers import Real
from typing import Any, NamedTuple, Union

from .._errors import FrameError
from .._results.snapshots import Snapshot
from .._results.tables import Point, Table, Window
from .._studies.grid import MEASURE
from .._studies.roads import KnownRoads
from .columns import COUNTS, IDENTITY, Array
from .required import numpy, pandas

Record = dict[str, Any]

RESERVED = [*IDENTITY, "error", "requested_density"]

# A result may repeat these values of the road. They are compared, and then left out.
OF_THE_ROAD = ["density", "cars", "cells"]


class NoRows(FrameError):
    """A result without rows."""


class Rows(NamedTuple):
    """The rows of a result in the cheapest form: a table is an array, which becomes a frame together with others.
    `kind` is `Point`, `Window`, `dict` or `pandas.DataFrame`; `levels` distinguish the rows of a road."""

    kind: type[Any]
    content: Union[Array, list[Record], pandas.DataFrame]
    levels: list[str]

    @property
    def is_of_points(self) -> bool:
        """Whether row i is that of road i."""
        return self.kind is Point


def rows_of(result: object, names: Sequence[str], roads: KnownRoads) -> Rows:
    """The rows of a result of the input with these roads. Raises `FrameError` if it cannot be part of a frame of the
    parameters `names`, or is not of this input."""
    rows = _read(result)
    if not len(rows.content):
        raise NoRows("the result has no rows: `first` and `every` may be longer than the run")
    _check_names(rows, names)
    _check_roads(rows, roads)
    _check_levels(rows)
    return rows


def _read(result: object) -> Rows:
    """The rows of a result of any kind."""
    if isinstance(result, pandas.DataFrame):
        return _of_frame(result)
    if isinstance(result, (Mapping, pandas.Series)) or hasattr(result, "_fields"):
        return _of_list([result])
    if isinstance(result, Table):
        return _of_table(result)
    if isinstance(result, (Real, numpy.bool_)):
        return Rows(dict, [{"value": _plain(result)}], [])
    if isinstance(result, Iterable) and not isinstance(result, (str, bytes)):
        return _of_list(list(result))
    raise FrameError(f"a result must be a table, a frame, a number, or rows with names, not {result!r}")


def _of_table(table: Table[Any]) -> Rows:
    """The rows of a table."""
    return Rows(table.kind, table.to_numpy(), ["step"] if table.kind is Window else [])


def _of_list(items: Sequence[object]) -> Rows:
    """Rows of a table, or named tuples and mappings, which have a `step` each if there are several."""
    kinds: list[Any] = [Point, Window]
    for kind in kinds:
        if items and all(isinstance(item, kind) for item in items):
            return _of_table(Table(kind, items))
    records = [_record(item) for item in items]
    has_steps = bool(records) and all("step" in record for record in records)
    return Rows(dict, records, ["step"] if has_steps else [])


def _record(item: object) -> Record:
    """A row by the names of its columns."""
    if isinstance(item, Snapshot):
        raise FrameError(f"snapshots are not rows of a frame: say what to measure in each job, for example {MEASURE}")
    row = item._asdict() if hasattr(item, "_asdict") else item
    if not isinstance(row, (Mapping, pandas.Series)):
        raise FrameError(
            f"a result must be a table, a frame, a number, or rows with names, and {item!r} is not a row with names"
        )
    return {_name(name): _plain(value) for name, value in row.items()}


def _plain(value: object) -> object:
    """A number of numpy as one of Python."""
    return value.item() if isinstance(value, numpy.generic) else value


def _of_frame(frame: pandas.DataFrame) -> Rows:
    """The rows of a frame, whose index has the levels if it has names."""
    levels = [_name(name) for name in frame.index.names if name is not None]
    flat = frame.reset_index(drop=not levels) if len(levels) == frame.index.nlevels else frame
    if len(set(flat)) < len(flat.columns):
        raise FrameError(f"the result has two columns of the same name: {list(flat)}")
    for name in flat:
        _name(name)
    return Rows(pandas.DataFrame, flat, levels or (["step"] if "step" in flat else []))


def _name(name: Hashable) -> str:
    """The name of a column; raises `FrameError` if it is not a string."""
    if not isinstance(name, str):
        raise FrameError(f"the columns of a result have names, and {name!r} is not a string")
    return name


def columns_of(rows: Rows) -> list[str]:
    """The names of the columns."""
    if isinstance(rows.content, list):
        return list(dict.fromkeys(name for record in rows.content for name in record))
    return list(rows.content) if isinstance(rows.content, pandas.DataFrame) else list(rows.content.dtype.names or ())


def _check_names(rows: Rows, names: Sequence[str]) -> None:
    """Raises `FrameError` if a measured value would overwrite a parameter, or the reverse."""
    columns = columns_of(rows)
    taken = [name for name in columns if name in RESERVED or name in names and name not in OF_THE_ROAD]
    if taken:
        raise FrameError(
            f"the result has a column `{taken[0]}`, which is a parameter or reserved: give it another name"
        )
    if "flow_millionths" in columns and not set(COUNTS) <= set(columns):
        raise FrameError("`flow_millionths` is the number of the file: return the row itself, or `row.flow` as `flow`")


def _check_roads(rows: Rows, roads: KnownRoads) -> None:
    """Raises `FrameError` if a result has other roads than its input."""
    count = len(roads["cars"])
    if rows.is_of_points and len(rows.content) != count:
        raise FrameError(f"the result has {len(rows.content)} of {count} points: return the whole table of the sweep")
    cars, cells = numpy.array(roads["cars"], dtype=float), numpy.full(count, float(roads["cells"]))
    of_roads = {"cars": cars, "cells": cells, "density": cars / cells}
    for name in [name for name in OF_THE_ROAD if name in columns_of(rows)]:
        expected = of_roads[name]
        measured = _column(rows, name)
        # A point is compared with its road, and another row with all roads. Densities may have been rounded.
        differences = measured - expected if rows.is_of_points else measured[:, None] - expected
        is_expected = abs(differences) <= 1e-9 * max(1.0, expected.max())
        if not (is_expected if rows.is_of_points else is_expected.any(axis=1)).all():
            raise FrameError(
                f"the result has the `{name}` {measured[:5]}, and a road of this input has {expected[0]:g}: return "
                "results of this input, and give measured values another name"
            )


def _check_levels(rows: Rows) -> None:
    """Raises `FrameError` if a result has several rows that nothing distinguishes."""
    if len(rows.content) == 1 or rows.is_of_points:
        return
    if not rows.levels:
        raise FrameError(
            f"the result has {len(rows.content)} rows that nothing distinguishes: return a frame with a named index, "
            "for example "
            '`frame.rename_axis("passing")`'
        )
    places = zip(*(_values(rows, name) for name in rows.levels))
    if len(set(places)) < len(rows.content):
        levels = " and ".join(rows.levels)
        raise FrameError(f"the result has several rows with the same {levels}: give it an index that differs")


def _values(rows: Rows, name: str) -> list[Any]:
    """The values of a column; None if a row does not have it."""
    if isinstance(rows.content, list):
        return [record.get(name) for record in rows.content]
    values: list[Any] = rows.content[name].tolist()
    return values


def _column(rows: Rows, name: str) -> Array:
    """The values of a column as floats."""
    try:
        return numpy.asarray(_values(rows, name), dtype=float)
    except (TypeError, ValueError):
        raise FrameError(f"the column `{name}` of the result has values that are not numbers") from None
