"""The rows of a frame in groups of independent repetitions, or an error that says why they are not independent."""
from __future__ import annotations

from collections.abc import Iterator, Sequence
from typing import Any, NamedTuple, Union

from .._errors import FrameError
from .columns import IDENTITY, PER_CAR, RUN, Array, as_numbers, place_shown, wrong_unit
from .required import numpy, pandas


class Repetitions(NamedTuple):
    """The rows with their parameters as columns, the names of the columns that distinguish the groups, and the group of
    each row: 0, 1 and so on in the order in which they appear."""

    rows: pandas.DataFrame
    names: list[str]
    group_of_row: Array

    @property
    def first(self) -> pandas.DataFrame:
        """The first row of each group."""
        return self.rows[~pandas.Series(self.group_of_row).duplicated().to_numpy()]

    def place(self, group: int) -> str:
        """A group in a message."""
        names = [name for name in self.names if name not in IDENTITY]
        return place_shown(names, first_of(self.first[names].iloc[group:])) or "the only group"

    def by_group(self, columns: dict[str, Array]) -> pandas.DataFrame:
        """A frame with one row for each group, whose index is the names."""
        frame = pandas.DataFrame(columns)
        if not self.names:
            return frame
        places = self.first[self.names].reset_index(drop=True)
        return pandas.concat([places, frame], axis=1).set_index(self.names)


def first_of(rows: pandas.DataFrame) -> Sequence[object]:
    """The values of the first row, each of the type of its column: `rows.iloc[0]` would make floats of whole
    numbers."""
    return [rows[name].iloc[0] for name in rows]


def need_runs(frame: pandas.DataFrame) -> pandas.DataFrame:
    """The rows of a frame with their parameters as columns. Raises `FrameError` unless they are single runs or
    windows."""
    if not {*IDENTITY} <= set(frame):
        raise FrameError(
            "this frame has no columns `key`, `road` and `ensemble`, so its rows may not be single runs, but for example "
            "means, or a table that was read from a file: take the frame that `Grid.run` or `Grid.frame` returned"
        )
    if frame.index.names == [None]:
        raise FrameError(
            "the parameters of a frame must be its index: call `frame.set_index([..])` with their names first"
        )
    if not len(frame):
        raise FrameError("this frame has no rows")
    _need_results(frame)
    rows = frame.reset_index()
    if len(set(rows)) < len(rows.columns):
        raise FrameError(f"this frame has two columns of the same name: {list(rows)}")
    are_texts = [rows[name].map(lambda text: isinstance(text, str)).all() for name in ("key", "ensemble")]
    if not all(are_texts) or rows["road"].isna().any():
        raise FrameError(
            "`key` and `ensemble` must be texts and `road` a number in each row. Read a file with "
            '`pandas.read_csv(file, dtype={"key": str, "ensemble": str})`, and do not mix single runs with means'
        )
    return rows


def _need_results(frame: pandas.DataFrame) -> None:
    """Raises `FrameError` if there are rows of choices without a result."""
    failed = frame[frame["error"].notna()] if "error" in frame else frame[:0]
    if len(failed):
        place = failed.index[0] if isinstance(failed.index[0], tuple) else (failed.index[0],)
        others = f" and {len(failed) - 1} more" if len(failed) > 1 else ""
        raise FrameError(
            f"there is no result at {place_shown(frame.index.names, place)}{others}: {failed['error'].iloc[0]}. Run it "
            "again, or leave such rows out with `frame[frame.error.isna()]`"
        )


def grouped(rows: pandas.DataFrame, names: list[str]) -> Repetitions:
    """The rows by the values of these columns."""
    if not names:
        return Repetitions(rows, names, numpy.zeros(len(rows), dtype=numpy.int64))
    number = rows.groupby(names, sort=False, dropna=False, observed=True).ngroup()
    return Repetitions(rows, names, pandas.factorize(number)[0])


def repetitions(
    frame: pandas.DataFrame, over: Union[str, Sequence[str]], unequal: bool = False, drawn: bool = False
) -> Repetitions:
    """The groups of runs that differ only in the levels `over`. Raises `FrameError` unless they are independent
    repetitions, as many in each group unless `unequal`, and of the same cells unless `drawn`."""
    rows = need_runs(frame)
    if drawn:
        rows["ensemble"] = rows["ensemble"].str.replace("-[0-9a-f]{12}", "-drawn", regex=True)
    levels = [over] if isinstance(over, str) else list(over)
    if not levels:
        raise FrameError('`over` is the name of the parameter that repeats the runs, for example over="seed"')
    for name in levels:
        if name == "step":
            raise FrameError("windows of one run are correlated: use `per_run(frame)`, and repeat the run")
        if name not in (*frame.index.names, "road"):
            raise FrameError(f"{name!r} is not a parameter of this frame, which has {list(frame.index.names)}")
    groups = grouped(rows, [name for name in frame.index.names if name not in levels])
    _need_independent(groups, list(frame.index.names))
    _need_same(groups)
    if not unequal:
        _need_complete(groups, levels)
    return groups


def _need_independent(groups: Repetitions, levels: Sequence[str]) -> None:
    """Raises `FrameError` if a run is repeated, or if repetitions have the same key."""
    rows = groups.rows
    doubled = rows.duplicated([*levels, "road"])
    if doubled.any():
        place = place_shown(levels, first_of(rows.loc[doubled, levels]))
        raise FrameError(f"two rows are {place}: is a parameter missing in the index, or a run repeated?")
    if rows[RUN].assign(group=groups.group_of_row).duplicated().any():
        raise FrameError(
            "some repetitions have the same key, so they are not independent: let `make` use the `key` that it gets, "
            "and use `per_run(frame)` if these are windows of one run"
        )


def _need_same(groups: Repetitions) -> None:
    """Raises `FrameError` if a group has runs of different inputs, roads or lengths."""
    for name in [name for name in ("ensemble", "cars", "cells", "steps") if name in groups.rows]:
        count = groups.rows[name].groupby(groups.group_of_row).nunique(dropna=False)
        if (count > 1).any():
            group = int(count.idxmax())
            values = list(dict.fromkeys(groups.rows[name][groups.group_of_row == group]))[:3]
            if name == "ensemble" and len({value.partition("-")[0] for value in values}) == 1:
                raise FrameError(
                    f"roads with different cells would be averaged at {groups.place(group)}. If you have drawn them at "
                    "random, say drawn=True; otherwise keep the parameter in which they differ as a level"
                )
            raise FrameError(
                f"runs with different `{name}` are not repetitions, and would be averaged at {groups.place(group)}: "
                f"{values}. Keep the parameter in which they differ as a level, or select one value of it"
            )


def _need_complete(groups: Repetitions, levels: Sequence[str]) -> None:
    """Raises `FrameError` if groups have different sizes, with an example of a missing run."""
    sizes = numpy.bincount(groups.group_of_row)
    if sizes.min() == sizes.max():
        return
    largest, smallest = int(sizes.argmax()), int(sizes.argmin())
    levels_of_rows = groups.rows[[name for name in levels if name != "road"]]

    def runs_of(group: int) -> Iterator[tuple[Any, ...]]:
        """The levels of the runs of a group."""
        return iter(levels_of_rows[groups.group_of_row == group].itertuples(index=False, name=None))

    present = set(runs_of(smallest))
    missing = [run for run in runs_of(largest) if run not in present]
    example = f" (without {place_shown(levels_of_rows, missing[0])})" if missing and missing[0] else ""
    raise FrameError(
        f"groups have {sizes.min()} to {sizes.max()} runs; the fewest are at {groups.place(smallest)}{example}. Run "
        "the missing ones, or pass unequal=True if it does not matter why they are missing"
    )


def numbers(groups: Repetitions, name: str) -> Array:
    """A column of the rows as floats. Raises `FrameError` for anything but finite numbers, except that a value per car
    is NaN without cars."""
    try:
        values = as_numbers(groups.rows[name])
    except ValueError as error:
        raise FrameError(f"{error}: name the columns to average with `of`") from None
    wrong = ~numpy.isfinite(values)
    if name in PER_CAR:
        wrong &= ~(numpy.isnan(values) & _without_cars(groups.rows))
    if unit := wrong_unit(name, values[numpy.isfinite(values)]):
        raise FrameError(unit)
    if wrong.any():
        place = groups.place(groups.group_of_row[int(wrong.argmax())])
        raise FrameError(
            f"`{name}` has {wrong.sum()} values that are missing or not finite, first at {place}: drop these rows, or "
            "choose other columns with `of`"
        )
    return values


def _without_cars(rows: pandas.DataFrame) -> Array:
    """Whether there are no cars, by row."""
    for name in "cars", "density":
        if name in rows:
            is_empty: Array = (rows[name] == 0).to_numpy()
            return is_empty
    return numpy.zeros(len(rows), dtype=bool)
