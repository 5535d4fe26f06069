"""Which rows of a table are possible: counts that contradict each other are not a result of the program.

The rules are expressions that hold for whole numbers and, row by row, for columns of numpy."""
from __future__ import annotations

import sys
from array import array
from collections.abc import Callable, Iterator, Sequence
from typing import Any, NamedTuple, Optional

from .._inputs.numbers import MAX_CELLS, MAX_SPEED

MILLION = 1000000

# A row contradicts itself if one of these rules is broken. The first ones are for all rows, the next ones for those of
# a series, and the last ones for two rows of a series in succession.
_OF_POINT = (
    f"a road has 1 to {2 * MAX_CELLS} cells",
    "at least 1 step is counted",
    "it has more cars than cells",
    "it has more stopped cars than cars x steps",
    f"a car that is not stopped drives 1 to {MAX_SPEED} cells per step",
    "no car drives further than its gap, so distance is at most (cells - cars) x steps",
    "a car changes lanes at most once per step, and only on a road of two lanes",
    "flow must be distance x 1000000 / (cells x steps), rounded down",
)
_OF_LANES = (
    "the cars of both lanes must add up to cars x steps",
    "the distances of both lanes must add up to distance",
    "the stopped cars of both lanes must add up to stopped",
    f"on each lane a car that is not stopped drives 1 to {MAX_SPEED} cells per step",
    "its window begins before step 0",
)
_OF_PAIR = (
    "its window must follow the window before it, and have as many steps",
    "it has other cars or cells than the window before it, and a run keeps both",
)


def _faults_of_point(row: Sequence[Any]) -> tuple[Any, ...]:
    """Which contradictions of `_OF_POINT` a row of a sweep has, in their order."""
    cars, cells, steps, distance, stopped, changes, flow = row
    cell_steps, car_steps, millionths = cells * steps, cars * steps, MILLION * distance
    moving = car_steps - stopped
    return (
        (cells < 1) | (cells > 2 * MAX_CELLS),
        steps < 1,
        cars > cells,
        moving < 0,
        (distance < moving) | (distance > MAX_SPEED * moving),
        distance > cell_steps - car_steps,
        (changes > car_steps) | (changes > 0) & (cells % 2 > 0),
        (flow > MILLION) | (cell_steps * flow > millionths) | (cell_steps * (flow + 1) <= millionths),
    )


def _faults_of_window(row: Sequence[Any]) -> tuple[Any, ...]:
    """Which contradictions of `_OF_POINT` and `_OF_LANES` a row of a series has, in their order."""
    step, cars, _, steps, distance, stopped, _, _, cars0, distance0, stopped0, cars1, distance1, stopped1 = row
    moving0, moving1 = cars0 - stopped0, cars1 - stopped1
    return _faults_of_point(row[1:8]) + (
        cars0 + cars1 != cars * steps,
        distance0 + distance1 != distance,
        stopped0 + stopped1 != stopped,
        (distance0 < moving0) | (distance0 > MAX_SPEED * moving0) | (moving0 < 0)
        | (distance1 < moving1) | (distance1 > MAX_SPEED * moving1) | (moving1 < 0),
        step < steps,
    )


def _faults_of_pair(before: Sequence[Any], row: Sequence[Any]) -> tuple[Any, ...]:
    """Which contradictions of `_OF_PAIR` a row of a series has with the row before it."""
    step_before, cars_before, cells_before, steps_before, *_ = before
    step, cars, cells, steps, *_ = row
    return (step - steps != step_before) | (steps != steps_before), (cars != cars_before) | (cells != cells_before)


_SAFE_CELL_STEPS = 2**42
"""With fewer cells x steps, a product of the rules leaves 64 bits only if one of its factors breaks another rule."""

_FEW = 1000
"""Fewer numbers are checked as fast without numpy."""

COLUMNS_OF_SERIES = 14
"""The number of columns of a series; a sweep has fewer."""


class Fault(NamedTuple):
    """The number of an impossible row, from 0, and its contradiction."""

    row: int
    contradiction: str


def rows_in(numbers: array[int], columns: int) -> Iterator[tuple[int, ...]]:
    """The rows of a table, whose numbers are given one after the other."""
    all_numbers = iter(numbers)
    # Each row takes the next number for each of its columns.
    return zip(*columns * [all_numbers])


def first_fault(numbers: array[int], columns: int) -> Optional[Fault]:
    """The first impossible row; None if all rows are possible. If numpy is imported, it accepts long tables ten times
    as fast."""
    is_series = columns == COLUMNS_OF_SERIES
    faults_of_row = _faults_of_window if is_series else _faults_of_point
    sentences = _OF_POINT + _OF_LANES if is_series else _OF_POINT
    if _are_possible(numbers, columns, faults_of_row):
        return None
    before: Optional[tuple[int, ...]] = None
    for place, row in enumerate(rows_in(numbers, columns)):
        faults = faults_of_row(row)
        if any(faults):
            return Fault(place, sentences[faults.index(True)])
        if is_series and before is not None:
            faults = _faults_of_pair(before, row)
            if any(faults):
                return Fault(place, _OF_PAIR[faults.index(True)])
        before = row
    return None


def _are_possible(
    numbers: array[int], columns: int, faults_of_row: Callable[[Sequence[Any]], tuple[Any, ...]]
) -> bool:
    """Whether numpy is there and finds no contradiction in any row."""
    numpy = sys.modules.get("numpy")
    if numpy is None or len(numbers) < _FEW:
        return False
    rows = numpy.ascontiguousarray(numpy.frombuffer(numbers, dtype=numpy.int64).reshape(-1, columns).T)
    is_series = columns == COLUMNS_OF_SERIES
    cells, steps = (rows[2], rows[3]) if is_series else (rows[1], rows[2])
    if int(cells.max()) * int(steps.max()) >= _SAFE_CELL_STEPS:
        return False
    faults = faults_of_row(rows) + (_faults_of_pair(rows[:, :-1], rows[:, 1:]) if is_series else ())
    return not any(fault.any() for fault in faults)
