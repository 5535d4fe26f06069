"""Columns that leave their frame for an estimate: what their index still shows."""
from __future__ import annotations

from collections.abc import Iterable, Sized

from .._errors import EstimateError
from .columns import Array, as_numbers
from .required import numpy, pandas


def as_column(values: object, name: str) -> pandas.Series:
    """A column, an array or a list as a column. Raises `EstimateError` for a frame, and for anything else than one
    list."""
    if isinstance(values, pandas.DataFrame):
        raise EstimateError(f"{name} must be one column, for example `frame.flow`, not a frame with {list(values)}")
    if isinstance(values, pandas.Series):
        return values
    if isinstance(values, (str, bytes)) or not isinstance(values, Iterable):
        raise EstimateError(f"{name} must be a list of values, not {values!r}")
    items = values.tolist() if isinstance(values, numpy.ndarray) else list(values)
    if any(isinstance(item, Sized) for item in items):
        raise EstimateError(f"{name} must be one list of numbers")
    return pandas.Series(items, name=name, dtype=None if items else float)


def finite_numbers(column: pandas.Series, name: str) -> Array:
    """The values of a column as floats. Raises `EstimateError` if one is missing, or is not a finite number."""
    try:
        values = as_numbers(column)
    except ValueError:
        raise EstimateError(f"{name} must be numbers") from None
    if not numpy.isfinite(values).all():
        raise EstimateError(f"{name} has {int((~numpy.isfinite(values)).sum())} values that are missing or not finite")
    return values


def various_levels(column: pandas.Series) -> list[str]:
    """The levels of the index of a column in which its values differ."""
    levels = column.index.to_frame(index=False)
    return [name for name in levels if levels[name].nunique(dropna=False) > 1]
