"""The columns of frames: the identity of the row, the exact counts, and the values that follow from them."""
from __future__ import annotations

from collections.abc import Hashable, Iterable
from decimal import Decimal
from numbers import Real
from typing import Any

from .required import numpy, pandas

Array = numpy.ndarray[Any, Any]

RUN = ["key", "road"]
"""The columns that identify a run: the key of its input, and the number of its road in the input (0 in a job)."""

IDENTITY = [*RUN, "ensemble"]
"""`ensemble` is the same for repetitions: inputs that differ only in their key and in the seed of their random start.
If the road was given cell by cell, a hyphen and a digest of its cells follow. These columns survive a filter, a merge
or a file; means have none of them."""

COUNTS = ["cars", "cells", "steps", "distance", "stopped", "changes"]
"""The exact counts of a run or window, from which its other values follow."""

LANE_SUMS = [f"{name}{lane}" for lane in (0, 1) for name in ("cars", "distance", "stopped")]
"""Sums over the steps of a window, by lane."""

DERIVED = ["density", "flow", "speed", "stopped_share", "change_rate"]

RANGES = {
    "density": 1, "requested_density": 1, "flow": 1, "speed": 35, "stopped_share": 1, "change_rate": 1, "occupancy": 1,
    "time_mean_speed": 35, "harmonic_mean_speed": 35,
}
"""The largest value that a column of this name can have in the units of trlab. The smallest is 0."""

PER_CAR = ["speed", "stopped_share", "change_rate"]
"""The values per car, which are NaN without cars."""


def derived(counts: pandas.DataFrame) -> pandas.DataFrame:
    """The values that follow from exact counts. Products are floats, so that no type of a count can overflow."""
    cars, cells, steps, distance, stopped, changes = (counts[name].astype(float) for name in COUNTS)
    car_steps = (cars * steps).where(cars > 0)
    return pandas.DataFrame({
        "density": cars / cells,
        "flow": distance / (cells * steps),
        "speed": distance / car_steps,
        "stopped_share": stopped / car_steps,
        "change_rate": changes / car_steps,
    })


def as_numbers(column: pandas.Series) -> Array:
    """A column as floats, with NaN for missing values. Raises `ValueError` if a value is not a real number or a
    flag."""
    types = pandas.api.types
    if types.is_object_dtype(column):
        is_numeric = all(value is None or isinstance(value, (Real, Decimal, numpy.bool_)) for value in column)
    else:
        is_real = types.is_numeric_dtype(column) and not types.is_complex_dtype(column)
        is_numeric = is_real or types.is_bool_dtype(column)
    if not is_numeric:
        raise ValueError(f"{column.name} has values that are not numbers")
    # Only the types of pandas itself have a missing value besides NaN.
    options = {"na_value": numpy.nan} if types.is_extension_array_dtype(column) else {}
    numbers: Array = column.to_numpy(dtype=float, **options)
    return numbers


def wrong_unit(name: Hashable, values: Array) -> str:
    """Why numbers cannot be in the unit of trlab that their column has; nothing if they can."""
    maximum = RANGES.get(str(name))
    impossible = values[(values < 0) | (values > maximum)] if maximum is not None else values[:0]
    if not len(impossible):
        return ""
    advice = ": `flow` of a file is in millionths, so read it with `trlab.Table.read`" if name == "flow" else ""
    example = f"{impossible[0]:g}"
    return f"`{name}` is between 0 and {maximum} in the units of trlab (see `trlab.UNITS`), not {example}{advice}"


def strange_value(frame: pandas.DataFrame) -> str:
    """Which value of a frame is not the one that its counts give; nothing if all are."""
    if not {*COUNTS} <= set(frame):
        return ""
    values = derived(frame)
    for name in [name for name in DERIVED if name in frame]:
        if not numpy.allclose(as_numbers(frame[name]), values[name], rtol=1e-9, equal_nan=True):
            return str(name)
    return ""


def place_shown(names: Iterable[Hashable], values: Iterable[object]) -> str:
    """Parameters in a message: `p=0.1, seed=3`."""
    return ", ".join(f"{name}={value}" for name, value in zip(names, values))
