"""The peak of a diagram, from repeated runs."""
from __future__ import annotations

import math
from collections.abc import Sequence
from typing import NamedTuple

from .._errors import EstimateError
from .columns import RUN, Array
from .means import means
from .peak_fits import LEAST_POINTS, Curve, Fit, Top
from .repetitions import numbers, repetitions
from .required import numpy, pandas

LEAST_RUNS = 5

LEAST_NEIGHBOURS = 3
"""The points on each side of the highest one that fits may use, however low they are."""

SIGNIFICANT = 3
"""How much the curve must fall on both sides, in standard errors, because a flat curve has a highest point too."""

MAX_X_SEM = 0.25
"""A maximum whose standard error is a larger share of the range of the fits is not a peak."""

LEAST_WEIGHT = 0.5
"""The least weight of the fits that have a maximum inside."""

_FLAT = (
    "the curve does not show where its maximum is, because it does not fall significantly on both sides of its highest "
    "point: take more runs, or points farther from the peak"
)


class Peak(NamedTuple):
    """The maximum `y` of a curve at `x`, with the standard errors `y_sem` and `x_sem`, in the units of the columns.

    It is a mean over many fits, to at most `points` points with at least `n` runs each. `corner`, 0 to 1, is the weight
    of those fits whose maximum is a corner. `chi2`, for `dof` degrees of freedom, is that of the best fit."""

    x: float
    x_sem: float
    y: float
    y_sem: float
    n: int
    points: int
    corner: float
    chi2: float
    dof: int


def peak(frame: pandas.DataFrame, over: str, x: str = "density", y: str = "flow", within: float = 0.1) -> Peak:
    """The peak of a curve of `y` against the parameter `x`, from runs that are repeated over `over`:

        trlab.peak(frame.xs(0.25, level="p"), over="seed")

    The largest of several noisy means is usually too high. So curves are fitted to the means around the highest one:
    polynomials of degree 2 to 4, and two lines or parabolas that meet in a corner between two neighbouring points, each
    to all these means and again without the lowest ones. The result is the mean of the maxima of all fits, with the
    weights exp(-AIC / 2). The criterion AIC is chi2 + 2 (parameters + points left out) (W. I. Jay and E. T. Neil, Phys.
    Rev. D 103, 114502, 2021), so that fits to few points, or with many parameters, have little weight. Each fit has at
    least two degrees of freedom. `within` limits the fits to points that are lower by at most this share, but to no
    fewer than three on each side.

    `x_sem` and `y_sem` are one standard error, from three sources: the scatter of the runs, propagated to first order,
    also if runs share keys between points; the scatter of the maxima of the different fits; and, if the maximum is a
    corner, half the distance of the two points between which it is, because the corner may be round there. So if
    `corner` is near 1, a longer run will not reduce `x_sem` below half a step, and closer points will. If a fit is bad,
    its errors are multiplied by the square root of chi2 / dof. In tests with smooth curves, corners and simulations,
    with steps from fine to coarse, the true value was within one standard error in more than 60 % of the cases, and
    within two in more than 90 %.

    Raises `EstimateError` if there are fewer than 5 runs at a point or fewer than 5 points, if the peak is at an end of
    the curve, if no curve fits, if the fits do not agree that there is a maximum inside, if `x_sem` is more than a
    quarter of the range of the fits, and if the curve does not fall by 3 standard errors on both sides, as on a
    plateau. Raises `FrameError` as `means` does."""
    if isinstance(within, bool) or not 0 < within < 1:
        raise EstimateError(f"`within` is a share between 0 and 1, not {within!r}")
    runs = _one_curve(frame, over, x, y)
    curve = means(runs, over=over, of=[y]).sort_index()
    part = _around_top(curve, y, within)
    places = part.index.to_numpy(dtype=float)
    middle, width = (places[0] + places[-1]) / 2, (places[-1] - places[0]) / 2
    n, covariance = int(part["n"].min()), _covariance(runs, over, x, y, part)
    # The places of the fits are from -1 to 1.
    fits = Curve((places - middle) / width, part[y].to_numpy(), covariance, n).fits()
    top, best, corner = _mean_of_fits(fits)
    _need_fall(curve, y, part[y].idxmax(), top)
    return Peak(
        x=middle + top.x * width, x_sem=math.sqrt(top.x_variance) * width, y=top.y, y_sem=math.sqrt(top.y_variance),
        n=n, points=len(part), corner=corner, chi2=best.chi2, dof=best.freedom,
    )


def _one_curve(frame: pandas.DataFrame, over: str, x: str, y: str) -> pandas.DataFrame:
    """The frame without the levels that have one value only. Raises `EstimateError` if it has several curves."""
    levels = list(frame.index.names)
    if x not in levels or over not in (*levels, "road") or y not in frame:
        raise EstimateError(
            f"`peak` needs the levels {x!r} and {over!r} and the column {y!r}: this frame has the levels {levels} and "
            f"the columns {list(frame)}"
        )
    others = [name for name in levels if name not in (x, over)]
    various = [name for name in others if frame.index.get_level_values(name).nunique(dropna=False) > 1]
    if various:
        raise EstimateError(
            f"this frame has several curves: select one value of {various}, with `frame.xs(value, level=name)`"
        )
    if not pandas.api.types.is_numeric_dtype(frame.index.get_level_values(x)):
        raise EstimateError(f"the values of {x!r} must be numbers")
    return frame.droplevel(others)


def _around_top(curve: pandas.DataFrame, y: str, within: float) -> pandas.DataFrame:
    """The points around the highest one that are at most the share `within` lower, and at least three on each side, if
    they exist."""
    values = curve[y].to_numpy()
    top = int(values.argmax())
    low = values < values[top] - within * abs(values[top])
    before, after = numpy.flatnonzero(low[:top]), numpy.flatnonzero(low[top:])
    first = before[-1] + 1 if len(before) else 0
    end = top + after[0] if len(after) else len(values)
    part = curve.iloc[max(0, min(first, top - LEAST_NEIGHBOURS)):max(end, top + 1 + LEAST_NEIGHBOURS)]
    if not 0 < top < len(values) - 1 or len(part) < LEAST_POINTS:
        raise EstimateError(
            f"the highest of {len(values)} points is point {top + 1}, at {curve.index[top]:g}: at least {LEAST_POINTS} "
            "points are needed, on both sides of it"
        )
    if part["n"].min() < LEAST_RUNS:
        raise EstimateError(f"`peak` needs at least {LEAST_RUNS} runs at each point, and there are {part['n'].min()}")
    if (part[f"{y}_sem"] == 0).any():
        raise EstimateError("the runs at a point are all equal, so they give no error of the peak")
    return part


def _covariance(runs: pandas.DataFrame, over: str, x: str, y: str, part: pandas.DataFrame) -> Array:
    """The covariance of the means of these points: from whole keys if each key has a run at every point."""
    groups = repetitions(runs, over)
    rows = groups.rows.assign(**{y: numbers(groups, y)})
    rows = rows[rows[x].isin(part.index)]
    if not rows.duplicated(RUN).any():
        return numpy.diag(part[f"{y}_sem"].to_numpy() ** 2)
    by_key = rows.pivot(index=RUN, columns=x, values=y)
    if by_key.isna().any(axis=None) or len(by_key) <= len(part):
        raise EstimateError(
            "some runs share keys between the points: give each run its own key, or each key a run at every point, "
            "and more keys than points"
        )
    return numpy.atleast_2d(numpy.cov(by_key.to_numpy().T)) / len(by_key)


class _MeanOfFits(NamedTuple):
    """The mean of the maxima of several fits with its variances, the best fit, and the weight of corners."""

    top: Top
    best: Fit
    corner: float


def _mean_of_fits(fits: Sequence[Fit]) -> _MeanOfFits:
    """The mean of the fits, weighted by the criterion of Akaike. Raises `EstimateError` if no curve fits the points, or
    if too few fits have a maximum or the maxima are too far apart."""
    criteria = numpy.array([fit.criterion for fit in fits])
    weights = numpy.exp((criteria.min() - criteria) / 2)
    # The mean of chi2 is dof, and its standard deviation sqrt(2 dof).
    best = fits[int(criteria.argmin())]
    if best.chi2 > best.freedom + 3 * math.sqrt(2 * best.freedom):
        raise EstimateError(
            f"no curve fits the means around the highest one (chi2 {best.chi2:.0f} for {best.freedom} degrees of "
            "freedom): take points closer to the peak, or a smaller `within`"
        )
    chosen = [number for number, fit in enumerate(fits) if fit.top is not None]
    share = weights[chosen].sum() / weights.sum()
    if share < LEAST_WEIGHT:
        raise EstimateError(_FLAT)
    weights = weights[chosen] / weights[chosen].sum()
    x, x_variance, y, y_variance = numpy.array([fits[number].top for number in chosen]).T
    scatter = numpy.array([max(1.0, fits[number].chi2 / fits[number].freedom) for number in chosen])
    mean_x, mean_y = float(weights @ x), float(weights @ y)
    top = Top(
        mean_x, float(weights @ (scatter * x_variance + (x - mean_x) ** 2)),
        mean_y, float(weights @ (scatter * y_variance + (y - mean_y) ** 2)),
    )
    # The range of the fits is from -1 to 1.
    if math.sqrt(top.x_variance) > 2 * MAX_X_SEM:
        raise EstimateError(_FLAT)
    return _MeanOfFits(top, best, corner=float(weights @ [fits[number].has_corner for number in chosen]))


def _need_fall(curve: pandas.DataFrame, y: str, highest: float, top: Top) -> None:
    """Raises `EstimateError` unless a point on each side is significantly lower than the maximum."""
    falls = (top.y - curve[y]) / numpy.hypot(curve[f"{y}_sem"], math.sqrt(top.y_variance))
    if not all((falls[side] >= SIGNIFICANT).any() for side in (curve.index < highest, curve.index > highest)):
        raise EstimateError(_FLAT)
