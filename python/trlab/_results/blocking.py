"""How precise a mean over the windows of one run can be at best, with the standard library only."""
from __future__ import annotations

from collections.abc import Sequence
from math import sqrt
from statistics import fmean, stdev
from typing import NamedTuple

from .._errors import EstimateError
from .drift import FEWEST, drift_of
from .series import values_of_series
from .tables import Row, Table

BLOCKS = 16
"""The number of blocks of consecutive windows. With 16 of them a standard error is uncertain by 1 / sqrt(30), which is
18 percent."""


class Blocking(NamedTuple):
    """The result of `Table.blocking`: the `mean` of a column over the windows of one run, and a lower bound for its
    standard error, `sem_lower_bound`, both in the unit of the column.

    Neighbouring windows are correlated, because a jam in one of them is often still there in the next. Means of blocks
    of windows are less correlated, so the error from blocks is larger than the error from windows, and the longer the
    blocks, the closer it comes to the true error from below (H. Flyvbjerg and H. G. Petersen, J. Chem. Phys. 91, 461,
    1989). Here the series is cut into 16 blocks of equal length, and the bound is the standard deviation of their means
    divided by 4. It is itself uncertain by 18 percent. Up to 15 windows at the beginning that fill no block count only
    in the mean.

    A single run cannot show more than this bound, because it does not contain fluctuations that last longer than the
    run, such as the slow spreading of gaps in free flow. In the Nagel-Schreckenberg model with p = 1/4 on 1000 cells,
    the means of 120 runs of 10,000 to 100,000 steps scattered by 1.0 to 1.1 times the bound at density 0.15, but by 1.3
    to 1.4 times at 0.4 and by 1.4 times at 0.05. The error that you publish should come from repeated runs, which
    `trlab.means` averages."""

    mean: float
    sem_lower_bound: float


def blocking_of_series(table: Table[Row], column: str) -> Blocking:
    """See `Table.blocking`."""
    return blocking_of(values_of_series(table, column, FEWEST))


def blocking_of(values: Sequence[float]) -> Blocking:
    """The bound for the values of a series, at least 40, in their order."""
    drift = drift_of(values)
    if drift.is_drifting:
        raise EstimateError(
            f"the series drifts (z = {drift.z:.1f}, p = {drift.p:.1g}), or is too short for its correlations: leave "
            "out more steps (`first`), or run longer"
        )
    length = len(values) // BLOCKS
    begin = len(values) - BLOCKS * length
    blocks = [fmean(values[first:first + length]) for first in range(begin, len(values), length)]
    return Blocking(fmean(values), stdev(blocks) / sqrt(BLOCKS))
