"""Means over independent repetitions, and their standard errors."""
from __future__ import annotations

from collections.abc import Sequence
from typing import Union

from .._errors import FrameError
from .branches import need_one_branch
from .columns import COUNTS, DERIVED, IDENTITY, LANE_SUMS, Array, derived, strange_value
from .repetitions import Repetitions, grouped, need_runs, numbers, repetitions
from .required import numpy, pandas


def mean_and_sem(values: Array, group: Array) -> tuple[Array, Array]:
    """The mean of each group 0, 1, .. and its standard error: the standard deviation of the n values (with n - 1)
    divided by the square root of n, which is NaN for a single value."""
    # Differences from a value of the group, so that equal values have exactly their mean, and an error of 0.
    first = numpy.zeros(group.max() + 1)
    first[group[::-1]] = values[::-1]
    count = numpy.bincount(group)
    mean = first + numpy.bincount(group, values - first[group]) / count
    squares = numpy.bincount(group, (values - mean[group]) ** 2)
    with numpy.errstate(invalid="ignore"):
        return mean, numpy.sqrt(squares / (count - 1) / count)


def means(
    frame: pandas.DataFrame,
    over: Union[str, Sequence[str]],
    of: Union[None, str, Sequence[str]] = None,
    unequal: bool = False,
    drawn: bool = False,
    mixed: bool = False,
) -> pandas.DataFrame:
    """The means over independent repetitions, for example `means(frame, over="seed")`.

    `frame` is a frame of `Grid.run` with one row for each run: the levels of its index are the parameters, and `over`
    names those that repeat the runs. The result has a row for each choice of the other parameters, with these columns
    for each column `X` of numbers, or each name in `of`:

    - `n`: the number of runs;
    - `X`: their arithmetic mean, in the unit of `X` (see `UNITS`);
    - `X_sem`: the standard error of this mean, which is the standard deviation of the runs (with n - 1) divided by the
      square root of n, and NaN if n is 1. The mean of an unlimited number of runs is within one standard error with a
      probability of 0.68 if n is large, 0.63 for n = 5 and 0.50 for n = 2 (Student's distribution).

    `density` and `requested_density` stay, since all runs of a mean have the same. Counts such as `distance` are
    averaged only on request. Without cars a speed is NaN, and so is its mean.

    Raises `FrameError` if the result would not be such a mean: for a frame of means, for several windows of one run
    (see `per_run`), for runs with the same key or of different inputs, for missing values, for times
    that are censored (see `lifetime`), for groups of different size unless `unequal`, and for different roads that you
    gave cell by cell, unless you confirm with `drawn` that you drew them at random.

    It also raises `FrameError` if the flows of the runs of one mean differ too much, for example because some roads
    jammed and others did not: then the mean is the flow of neither, and depends on the length of the runs. With `mixed`
    you get it all the same, as the mean over runs of exactly this length. Five or more flows differ too much if their
    standard deviation is at least 30 % of their mean, or if there is a gap between two of them that is at least a
    quarter of the largest flow and 3 times the standard deviation on both sides of it. There was no false alarm in 6888
    means of the Nagel-Schreckenberg model on 1000 cells over 2000 steps. Of means over 5 normal values, no one in 4000
    caused one if they scattered by 4 %, and 1 in 200 did with 10 %, as on very short roads. Fewer than 5 runs, and
    branches whose flows differ by less than a quarter, are not noticed."""
    groups = repetitions(frame, over, unequal, drawn)
    if of is None:
        chosen = _measured(frame)
    else:
        chosen = [of] if isinstance(of, str) else list(of)
    _check_columns(frame, chosen)
    _need_ends(frame, chosen)
    if not mixed:
        need_one_branch(groups)
    columns: dict[str, Array] = {}
    for name in "density", "requested_density":
        if name in frame and name not in chosen:
            columns[name] = groups.first[name].to_numpy()
    columns["n"] = numpy.bincount(groups.group_of_row)
    for name in chosen:
        columns[name], columns[f"{name}_sem"] = mean_and_sem(numbers(groups, name), groups.group_of_row)
    return groups.by_group(columns)


_NOT_AVERAGED = {*IDENTITY, *COUNTS, *LANE_SUMS, "windows", "requested_density", "error"}


def _measured(frame: pandas.DataFrame) -> list[str]:
    """The columns to average: all but the identity of a run, its counts, and texts."""
    skipped = set(_NOT_AVERAGED)
    if "cars" in (*frame, *frame.index.names):
        skipped.add("density")

    def is_of_texts(name: str) -> bool:
        """Whether a column has only strings."""
        return bool(frame[name].map(lambda value: isinstance(value, str)).all())

    return [name for name in frame if name not in skipped and not is_of_texts(name)]


def _check_columns(frame: pandas.DataFrame, chosen: Sequence[str]) -> None:
    """Raises `FrameError` unless the chosen columns are there, and the names of the new ones are free."""
    if not chosen:
        raise FrameError(f"this frame has no column of numbers to average: its columns are {list(frame)}")
    for name in chosen:
        if name not in frame:
            raise FrameError(f"{name!r} is not a column of this frame, which has {list(frame)}")
    new_columns = ["n", *(f"{name}_sem" for name in chosen)]
    clash = [name for name in new_columns if name in (*frame, *frame.index.names)]
    if clash:
        raise FrameError(
            f"the column `{clash[0]}` would be overwritten by a column of the means: give it another name"
        )


def _need_ends(frame: pandas.DataFrame, chosen: Sequence[str]) -> None:
    """Raises `FrameError` for the mean of times of which some are censored."""
    if "time" in chosen and "observed" in frame and not frame["observed"].eq(True).all():
        raise FrameError(
            "some times are censored, so that their mean is too short: use `trlab.lifetime(times, observed)`"
        )


def per_run(frame: pandas.DataFrame) -> pandas.DataFrame:
    """One row for each run, from its windows: exact counts are added up over the level `step`, and density, flow, speed
    and shares follow from the sums, in the units of `UNITS`. `windows` is the number of windows, `steps` the number of
    their steps.

        trlab.means(trlab.per_run(frame), over="seed")

    Raises `FrameError` if the windows of a run do not follow each other, because then one is missing, and for columns
    that are not counts, because these cannot be added up: measure them in one window per run."""
    rows = need_runs(frame)
    names = [name for name in frame.index.names if name != "step"]
    if len(names) == len(frame.index.names):
        raise FrameError("this frame has no level `step`: each row is a run already")
    _need_counts(frame)
    sums = [name for name in (*COUNTS[2:], *LANE_SUMS) if name in rows]
    windows = grouped(rows, [*names, *IDENTITY])
    for name in ("step", "cars", "cells", *sums):
        numbers(windows, name)
    if name := strange_value(rows):
        raise FrameError(f"`{name}` is not what the counts of its window say: take the frame that `Grid.run` returned")
    _need_consecutive(windows)
    groups = rows.groupby(windows.group_of_row)
    counts = pandas.concat([groups[["cars", "cells"]].first(), groups[sums].sum()], axis=1)
    values = pandas.concat([derived(counts), counts, groups.size().rename("windows")], axis=1)
    first_rows = windows.first.reset_index(drop=True)
    has_request = "requested_density" in first_rows
    parameters = first_rows[[*names, "requested_density"] if has_request else names]
    runs = pandas.concat([parameters, values.drop(columns=names, errors="ignore"), first_rows[IDENTITY]], axis=1)
    return runs.set_index(names) if names else runs


def _need_counts(frame: pandas.DataFrame) -> None:
    """Raises `FrameError` unless the columns are the counts of windows, and values that follow from counts."""
    strange_columns = set(frame) - {*COUNTS, *LANE_SUMS, *DERIVED, *IDENTITY, "requested_density", "error"}
    if strange_columns or not set(COUNTS) <= {*frame, *frame.index.names}:
        strange = sorted(strange_columns or set(frame))
        raise FrameError(
            f"per_run adds up the counts of `Job.series`, and cannot add up {strange}: measure one window per run"
        )


def _need_consecutive(windows: Repetitions) -> None:
    """Raises `FrameError` unless the windows of each run are of one road, and each begins where the one before it
    ends."""
    rows = windows.rows.assign(group=windows.group_of_row, begin=windows.rows["step"] - windows.rows["steps"])
    rows = rows.sort_values(["group", "step"], kind="stable")
    before = rows.shift()
    is_next = (rows["begin"] == before["step"]) & (rows["cars"] == before["cars"]) & (rows["cells"] == before["cells"])
    gaps = rows[(rows["group"] == before["group"]) & ~is_next]
    if len(gaps):
        place, step = windows.place(gaps["group"].iloc[0]), gaps["step"].iloc[0]
        raise FrameError(f"the windows of {place} do not follow each other at step {step}: is one missing or repeated?")
    spans = rows.groupby(["ensemble", "group"])[["begin", "step"]].agg({"begin": "min", "step": "max"})
    if (spans.groupby(level="ensemble").nunique() > 1).any(axis=None):
        raise FrameError(
            "runs of one input have windows of different steps, so that they cannot be compared: keep all windows"
        )
