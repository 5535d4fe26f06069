"""Does a series still drift? The test of Schruben, Singh and Tierney (1983), with the standard library only."""
from __future__ import annotations

from collections.abc import Sequence
from itertools import accumulate
from math import atan, cos, exp, inf, lgamma, pi, sqrt
from statistics import fmean, variance
from typing import NamedTuple

from .series import values_of_series
from .tables import Row, Table

BATCHES = 20
"""The number of batches, of equally many windows, in the last half of a series."""

FEWEST = 2 * BATCHES
"""The minimum number of windows of a series."""


class Drift(NamedTuple):
    """The result of `Table.drift`: whether the initial state still matters.

    `z` is positive if the series rises. `p`, 0 to 1, is the probability that a stationary series has a `z` at least as
    far from 0. With S(k) the sum of the first k deviations from the mean of n values,

        z = -sqrt(45) / (n**1.5 * sigma) * (sum over k from 1 to n of (1 - k / n) * S(k))

    (L. W. Schruben, H. Singh and L. Tierney, Optimal tests for initialization bias in simulation output, Operations
    Research 31, 1167-1178, 1983). z gives most weight to the beginning of the series. For a long stationary series it
    has the standard normal distribution, if sigma**2 / n is the variance of the mean. Here sigma is estimated from the
    last half of the series, which the initial state affects least, with the means of 20 batches of consecutive windows.
    So `p` follows Student's distribution with 19 degrees of freedom.

    The batches must be nearly independent: a batch, which is 1/40 of the series, must be longer than the time after
    which the flow forgets a fluctuation. Otherwise the test reports drifts that do not exist. If `p` is small, leave
    out more steps (`first`). A large `p` does not prove that nothing drifts, because the test misses a drift much
    smaller than the noise. You should then test several series with different keys: if none drifts, the sum of their
    `z`, divided by the square root of their number, has nearly the standard normal distribution."""

    z: float
    p: float

    @property
    def is_drifting(self) -> bool:
        """Whether `p` is below 0.01. One stationary series in 100 seems to drift."""
        return self.p < 0.01


def drift_of_series(table: Table[Row], column: str) -> Drift:
    """See `Table.drift`."""
    return drift_of(values_of_series(table, column, FEWEST))


def drift_of(values: Sequence[float]) -> Drift:
    """The test for the values of a series, at least 40, in their order."""
    count = len(values)
    if min(values) == max(values):
        return Drift(0.0, 1.0)
    mean, sigma = fmean(values), _sigma(values[count // 2 :])
    sums = accumulate(value - mean for value in values)
    rise = -sqrt(45) / count**1.5 * sum((1 - place / count) * total for place, total in enumerate(sums, 1))
    if sigma == 0:
        return Drift(inf if rise > 0 else -inf, 0.0)
    return Drift(rise / sigma, tails_of_t(rise / sigma, BATCHES - 1))


def _sigma(values: Sequence[float]) -> float:
    """The standard deviation that a value would have if all were independent, from batch means."""
    length = len(values) // BATCHES
    last = values[-BATCHES * length :]
    return sqrt(length * variance([fmean(last[first : first + length]) for first in range(0, len(last), length)]))


def tails_of_t(t: float, freedom: float) -> float:
    """The probability that a number of Student's distribution is further from 0 than `t`, by Simpson's rule.

    With t = sqrt(freedom) tan(angle) its density becomes a power of a cosine."""
    low, parts = atan(abs(t) / sqrt(freedom)), 1000
    width = (pi / 2 - low) / parts
    heights: list[float] = [cos(low + width * part) ** (freedom - 1) for part in range(parts)] + [0.0 ** (freedom - 1)]
    area = width / 3 * (heights[0] + 4 * sum(heights[1::2]) + 2 * sum(heights[2:-1:2]) + heights[-1])
    return min(1.0, 2 * area * exp(lgamma((freedom + 1) / 2) - lgamma(freedom / 2)) / sqrt(pi))
