"""Lifetimes, some of which are cut off by the end of a run."""
from __future__ import annotations

import math
from collections.abc import Iterable
from typing import NamedTuple, Union

from .._errors import EstimateError
from .columns import Array
from .required import numpy, pandas
from .series import as_column, finite_numbers, various_levels

MAX_Z = 3.0
"""The largest deviation from an exponential law, in standard deviations."""

Values = Union[Iterable[float], Array, pandas.Series]


class Lifetime(NamedTuple):
    """The mean life `mean` of an exponential law and its standard error `sem`, in the unit of the times (steps), from
    `observed` lives whose end was seen and `censored` ones that were cut off. The number of runs is the sum of both."""

    mean: float
    sem: float
    observed: int
    censored: int


def lifetime(times: Values, observed: Values) -> Lifetime:
    """The mean life of an exponential law, even if runs end before some lives do. `times` (steps, above 0) and
    `observed` (whether the end was seen) are those of `Job.time_until` in independent runs of the same input:

        lives = grid.run(call=lambda job: job.time_until(lambda window: window.stopped > 0, every=10))
        for density, runs in lives.groupby("density"):
            print(density, trlab.lifetime(runs.time, runs.observed))

    The mean is the sum of all times, divided by the number of ends d, and its standard error is mean / sqrt(d), which
    is rough for d below 10 (Epstein and Sobel, J. Am. Stat. Assoc. 48, 486, 1953). The law is exponential if `survival`
    is straight on a logarithmic axis. Times of windows of `every` steps are half a window too long on average.

    For another law the mean and its error would be wrong, so the law is tested, also if some lives are cut off: in the
    total time of all lives up to an age, the ends of exponential lives are at random places (Epstein, Technometrics 2,
    83, 1960). If the mean of these places is more than 3 standard deviations from the middle, which happens for 3 of
    1000 samples of an exponential law, the estimate is rejected. Four lives or fewer always pass.

    Raises `EstimateError` if no life ended, because there is only a lower bound then, if the law is clearly not
    exponential, if times and ends are not as described, and if an index shows that runs of several inputs are mixed.
    The lives of jams are not exponential: see `Jam`."""
    time, is_observed = _checked_lives(times, observed)
    ends = int(is_observed.sum())
    if not ends:
        raise EstimateError(
            f"no life ended in {time.sum():.0f} steps in total, so there is only a lower bound: run longer"
        )
    _need_exponential(time, is_observed)
    mean = float(time.sum() / ends)
    return Lifetime(mean, mean / math.sqrt(ends), ends, len(time) - ends)


def _need_exponential(time: Array, is_observed: Array) -> None:
    """Raises `EstimateError` if lives are clearly not exponential, by the test that `lifetime` describes."""
    # The end of the longest life, if it was seen, is at the end of the total time, and not at random.
    order = numpy.lexsort((is_observed, time))
    ages, ends = time[order], is_observed[order]
    ends[-1] = False
    if not ends.any():
        return
    # The total time of all lives up to each age. Whole times are those of windows, in which lives end half a window
    # earlier on average.
    left = len(ages) - numpy.searchsorted(ages, ages, side="left")
    totals = numpy.cumsum(numpy.diff(ages, prepend=0.0) * (len(ages) - numpy.arange(len(ages))))
    window = numpy.gcd.reduce(ages.astype(numpy.int64)) if (ages % 1 == 0).all() else 0
    places = (totals - left * window / 2)[ends] / totals[-1]
    z = (places.mean() - 0.5) * math.sqrt(12 * len(places))
    if abs(z) > MAX_Z:
        sample = numpy.sort(time)
        raise EstimateError(
            f"these lives are not exponential (z = {z:.1f}; the median is {numpy.median(sample):g} and the mean of all "
            f"times {time.mean():.4g}): {'too many are short' if z < 0 else 'too few are short'}. Look at `survival`. If "
            "no life was cut off, their mean needs no law: `trlab.means(frame, over=\"seed\", of=\"time\")` for one life "
            "per run, and for jams the mean of each run first (see `trlab.Jam`)"
        )


def survival(times: Values, observed: Values) -> pandas.DataFrame:
    """The share of lives that are longer than `time`, even if runs end before some lives do. The method is that of
    Kaplan and Meier (J. Am. Stat. Assoc. 53, 457, 1958), and the arguments are those of `lifetime`:

        curve = trlab.survival(runs.time, runs.observed).survival
        curve.plot(drawstyle="steps-post", logy=True)

    The index is `time`, from 0 on, in the unit of the times (steps); the columns are `at_risk`, the number of lives
    that are at least that long, the share `survival`, and its standard error `survival_sem` by the formula of Greenwood
    (1926). This is 0 before the first end and NaN when no life is left: the error is unknown there, and not 0.

    Raises `EstimateError` as `lifetime` does, but not if no life ended."""
    time, is_observed = _checked_lives(times, observed)
    lives = pandas.DataFrame({"time": time, "end": is_observed}).groupby("time")["end"].agg(["size", "sum"])
    lives = pandas.concat([pandas.DataFrame(0, index=[0.0], columns=["size", "sum"]), lives]).rename_axis("time")
    at_risk, ends = lives["size"][::-1].cumsum()[::-1], lives["sum"]
    share = (1 - ends / at_risk).cumprod()
    # The terms of Greenwood, of which the last one divides by zero if the longest life ended.
    terms = ends / (at_risk * (at_risk - ends)).where(at_risk > ends)
    sem = share * numpy.sqrt(terms.cumsum(skipna=False))
    return pandas.DataFrame({"at_risk": at_risk, "survival": share, "survival_sem": sem})


class _Lives(NamedTuple):
    """The times of lives, and whether the end of each was seen."""

    time: Array
    is_observed: Array


def _checked_lives(times: Values, observed: Values) -> _Lives:
    """The lives of these columns or arrays. Raises `EstimateError` if they cannot be lives of repetitions of one
    input."""
    time, end = as_column(times, "`times`"), as_column(observed, "`observed`")
    if len(time) != len(end) or not len(time):
        raise EstimateError(
            f"`times` and `observed` must have equally many values, at least one, not {len(time)} and {len(end)}"
        )
    are_columns = isinstance(times, pandas.Series) and isinstance(observed, pandas.Series)
    if are_columns and not time.index.equals(end.index):
        raise EstimateError("`times` and `observed` must be of the same runs in the same order: their indexes differ")
    _need_one_input(time)
    values, ends = finite_numbers(time, "`times`"), finite_numbers(end, "`observed`")
    if not numpy.isin(ends, [0, 1]).all():
        raise EstimateError("`observed` must be True or False for each life")
    if not (values > 0).all():
        raise EstimateError(f"each time must be above 0, and {values.min():g} is not")
    return _Lives(values, ends.astype(bool))


def _need_one_input(time: pandas.Series) -> None:
    """Raises `EstimateError` if the index of the times shows that they are not repetitions of one input."""
    various = various_levels(time)
    if len(various) > 1:
        raise EstimateError(
            f"these lives have several values of {various}: select one input, for example with "
            f"`frame.groupby({various[0]!r})`"
        )
    if time.index.has_duplicates and time.index.names != [None]:
        raise EstimateError(
            "two of these lives are of the same run: is a parameter missing in the index, or a run repeated?"
        )
