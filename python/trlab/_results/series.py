"""The values of a series, for estimates from a single run."""
from __future__ import annotations

from math import isfinite

from .._errors import EstimateError, ParameterError
from .._renamed import IN_ROW, need_current_name
from .tables import Row, Table, Window

COLUMNS = (
    "flow", "speed", "stopped_share", "change_rate", "distance", "stopped", "changes",
    "cars0", "distance0", "stopped0", "cars1", "distance1", "stopped1",
)
"""The columns of a series that may change from window to window."""


def values_of_series(table: Table[Row], column: str, fewest: int) -> list[float]:
    """A column of the windows of one run, in their order. Raises `EstimateError` unless the windows are consecutive,
    equally long and at least `fewest`, and `ParameterError` for a column without such values."""
    need_current_name("a row", column, IN_ROW)
    if column not in COLUMNS:
        raise ParameterError(f"`column` must be one of {', '.join(COLUMNS)}, not {column!r}")
    if table.kind is not Window:
        raise EstimateError("this needs the table of a series, and this is the table of a sweep")
    windows = [row for row in table if isinstance(row, Window)]
    for before, after in zip(windows, windows[1:]):
        if after.step != before.step + after.steps or after[1:4] != before[1:4]:
            raise EstimateError(
                f"the window of step {after.step} does not follow that of step {before.step}: take all windows of one "
                "run, all equally long"
            )
    values = [getattr(window, column) for window in windows]
    if not all(map(isfinite, values)):
        raise ParameterError(f"without cars there is no {column}: take the flow")
    need_enough(values, fewest)
    return values


def need_enough(values: list[float], fewest: int) -> None:
    """Raises `EstimateError` if there are fewer values than that."""
    if len(values) < fewest:
        raise EstimateError(
            f"this needs at least {fewest} windows, and the series has {len(values)}: take fewer steps per window "
            "(`every`) or more steps"
        )
