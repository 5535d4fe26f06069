"""Tidy frames of pandas: one row for each run, or for each window of it.

The parameters of a study are the levels of the index, so that means know their levels; measured values are the columns.
The last columns identify the run of the row (see `columns.IDENTITY`), or give the reason why there is none."""
from __future__ import annotations

from collections.abc import Iterable, Mapping, Sequence
from typing import Any, Optional, Union

from .._errors import FrameError
from .._results.tables import Point, Table, Window
from .._studies.keys import as_fraction
from .._studies.roads import KnownRoads
from .columns import COUNTS, DERIVED, IDENTITY, RANGES, as_numbers, derived, strange_value, place_shown, wrong_unit
from .required import numpy, pandas
from .rows import OF_THE_ROAD, NoRows, Rows, rows_of

Place = tuple[Any, ...]


def frame_of_table(table: Table[Any]) -> pandas.DataFrame:
    """The rows of a table: its exact counts, and the values that follow from them."""
    return _with_derived(pandas.DataFrame(table.to_numpy()))


def tidy(
    results: Union[Mapping[Place, object], Iterable[tuple[Place, object]]],
    names: Sequence[str],
    runs: Mapping[Place, KnownRoads],
    keep: bool = False,
) -> pandas.DataFrame:
    """One frame of the results of these inputs, by the values of the parameters `names`, in the order of `runs`.

    A result that is an exception, and with `keep` one that is missing or has no rows, is a row of NaN with its text in
    the column `error`. Each result is checked when it arrives, so that a wrong `call` is noticed at once."""
    rows_by_choice: dict[Place, Rows] = {}
    errors: dict[Place, str] = {}
    for place, result in results.items() if isinstance(results, Mapping) else results:
        if isinstance(result, Exception):
            errors[place] = f"{type(result).__name__}: {result}"
            continue
        try:
            rows_by_choice[place] = rows_of(result, names, runs[place])
        except FrameError as error:
            if not (keep and isinstance(error, NoRows)):
                raise FrameError(f"{place_shown(names, place) or 'the only input'}: {error}") from None
            errors[place] = f"FrameError: {error}"
    missing = [place for place in runs if place not in rows_by_choice and place not in errors]
    if missing and not keep:
        raise FrameError(
            f"{len(missing)} of {len(runs)} choices have no result, first {place_shown(names, missing[0])}"
        )
    errors.update((place, "no result yet") for place in missing)
    measured = _measured(rows_by_choice, errors, list(runs))
    return _arranged(measured, _choices(names, runs), rows_by_choice, runs, names)


def _measured(
    rows_by_choice: Mapping[Place, Rows], errors: Mapping[Place, str], order: Sequence[Place]
) -> pandas.DataFrame:
    """The measured columns of all rows. The index is the number of the choice."""
    parts: dict[Any, list[tuple[int, Any]]] = {}
    for number, place in enumerate(order):
        if place in rows_by_choice:
            parts.setdefault(rows_by_choice[place].kind, []).append((number, rows_by_choice[place].content))
    frames = [_joined(kind, contents) for kind, contents in parts.items()]
    if errors:
        numbers = [number for number, place in enumerate(order) if place in errors]
        frames.append(pandas.DataFrame({"error": [errors[order[number]] for number in numbers]}, index=numbers))
    return pandas.concat(frames).sort_index(kind="stable")


def _joined(kind: Any, parts: Sequence[tuple[int, Any]]) -> pandas.DataFrame:
    """The rows of all results of one kind. The index is the number of the choice."""
    index = numpy.repeat([number for number, _ in parts], [len(content) for _, content in parts])
    contents = [content for _, content in parts]
    if kind in (Point, Window):
        return _with_derived(pandas.DataFrame(numpy.concatenate(contents), index=index))
    if kind is dict:
        frame = pandas.DataFrame([record for content in contents for record in content], index=index)
    else:
        frame = pandas.concat(contents, ignore_index=True).set_axis(index)
    _check_units(frame)
    return _with_derived(frame) if set(COUNTS) <= set(frame) else frame


def _check_units(frame: pandas.DataFrame) -> None:
    """Raises `FrameError` if a measured column has the name of a value in the units of trlab, and cannot be one."""
    for name in [name for name in RANGES if name in frame]:
        try:
            values = as_numbers(frame[name])
        except ValueError as error:
            raise FrameError(f"{error}: give such a column another name") from None
        if wrong := wrong_unit(name, values):
            raise FrameError(f"{wrong}. Give a column in other units another name")


def _with_derived(counts: pandas.DataFrame) -> pandas.DataFrame:
    """Counts and the values that follow from them. If these are there already, they must be the same."""
    frame = counts.drop(columns=["flow_millionths"], errors="ignore")
    if name := strange_value(frame):
        raise FrameError(f"`{name}` of the result contradicts its counts: give a measured value another name")
    return pandas.concat([frame.drop(columns=DERIVED, errors="ignore"), derived(frame)], axis=1)


def _choices(names: Sequence[str], runs: Mapping[Place, KnownRoads]) -> pandas.DataFrame:
    """The parameters and the key of each choice. A density is that of the road."""
    values = {name: [place[position] for place in runs] for position, name in enumerate(names)}
    choices = pandas.DataFrame(values, index=range(len(runs)))
    if "density" in names:
        choices["requested_density"] = [float(as_fraction(value)) for value in choices["density"]]
        choices["density"] = [roads["cars"][0] / roads["cells"] for roads in runs.values()]
    choices["key"] = [roads["key"] for roads in runs.values()]
    return choices


def _arranged(
    measured: pandas.DataFrame, choices: pandas.DataFrame, rows_by_choice: Mapping[Place, Rows],
    runs: Mapping[Place, KnownRoads], names: Sequence[str],
) -> pandas.DataFrame:
    """The frame with its index, and its columns in their order."""
    choice_of_row = choices.loc[measured.index].reset_index(drop=True)
    roads = [road for place, known in runs.items() for road in _roads(rows_by_choice.get(place), known)]
    choice_of_row["road"] = [number for number, _ in roads]
    choice_of_row["ensemble"] = [ensemble for _, ensemble in roads]
    # Only columns of the road can be in both, and are equal.
    repeated = [name for name in OF_THE_ROAD if name in choice_of_row]
    without_repeated = measured.reset_index(drop=True).drop(columns=repeated, errors="ignore")
    frame = pandas.concat([without_repeated, choice_of_row], axis=1)
    inner = list(dict.fromkeys(name for rows in rows_by_choice.values() for name in rows.levels))
    if (frame["road"] > 0).any() and "density" not in names:
        inner.append("density")
    if "requested_density" in frame and numpy.array_equal(frame["requested_density"], frame["density"]):
        frame = frame.drop(columns="requested_density")
    levels = [*names, *(name for name in inner if name not in names)]
    first = [name for name in ("requested_density", *DERIVED) if name in frame and name not in levels]
    last = [name for name in (*IDENTITY, "error") if name in frame]
    others = [name for name in frame if name not in (*first, *levels, *last)]
    return frame.set_index(levels)[[*first, *others, *last]] if levels else frame[[*first, *others, *last]]


def _roads(rows: Optional[Rows], known: KnownRoads) -> list[tuple[int, str]]:
    """The road and the ensemble of each row of a result, or of the row of its error."""
    ensembles = known["ensembles"]
    if rows is not None and rows.is_of_points:
        return list(enumerate(ensembles))
    return [(0, "+".join(sorted(set(ensembles))))] * (1 if rows is None else len(rows.content))
