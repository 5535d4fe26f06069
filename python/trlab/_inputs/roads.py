"""Roads as you write them, and as they are in input files: a string for each lane."""
from __future__ import annotations

import math
from collections.abc import Iterable, Mapping, Sequence, Set
from enum import Enum
from typing import Any, Optional, Union

from .._errors import ParameterError
from .numbers import MAX_CELLS, MAX_SPEED, checked_int, shown

SPEEDS = "0123456789abcdefghijklmnopqrstuvwxyz"
"""The characters of speeds in files and snapshots, 0 to 35 cells per step."""

Lane = Union[str, Iterable[Optional[float]]]
"""A lane as you write it: the speed of the car in each cell, in cells per step, and None, NaN or -1 for an empty cell;
or the characters of a file."""

Road = Union[Lane, Iterable[Lane]]
"""A road as you write it: a lane, or two lanes."""

_ROAD_FORM = "a road is a list of speeds, with None for an empty cell, or two such lists"


def lanes_of(road: object, limit: int = MAX_SPEED) -> tuple[str, ...]:
    """A road in the characters of a file: the speed of each car, and `.` for an empty cell.

    Raises `ParameterError` if it is not a road, if a car is faster than `limit`, or if it may be meant as the number of
    cars by cell."""
    shape: tuple[int, ...] = getattr(road, "shape", ())
    if len(shape) > 2 or len(shape) == 2 and shape[0] > 2:
        raise ParameterError(
            f"{_ROAD_FORM}: an array has the shape (cells,) or (lanes, cells) with 1 or 2 lanes, not {shape}"
        )
    items = _items(road)
    if isinstance(items, str) or not any(_is_lane(item) for item in items):
        items = [items]
    if not 1 <= len(items) <= 2 or not all(_is_lane(lane) for lane in items):
        raise ParameterError(f"{_ROAD_FORM}, not {shown(road)}")
    lanes = tuple(_lane_text(_items(lane), limit) for lane in items)
    if len({len(lane) for lane in lanes}) == 2:
        raise ParameterError(f"the lanes have {len(lanes[0])} and {len(lanes[1])} cells, and must have the same number")
    if not 1 <= len(lanes[0]) <= MAX_CELLS:
        raise ParameterError(f"{_ROAD_FORM}; a lane has 1 to {MAX_CELLS} cells, not {len(lanes[0])}")
    if not all(isinstance(lane, str) for lane in items):
        _refuse_occupancy(lanes)
    return lanes


def roads_of(roads: object, length: int, lanes: int, limit: int) -> tuple[tuple[str, ...], ...]:
    """A list of roads of one shape. Raises `ParameterError`, with the number of the road, if one is something else."""
    items = _items(roads)
    if isinstance(items, str) or not all(_is_lane(road) for road in items):
        raise ParameterError("`start` of a sweep is a list of roads, one for each point: for one road write `[road]`")
    return tuple(_road_of(number, road, length, lanes, limit) for number, road in enumerate(items))


def _road_of(number: int, road: object, length: int, lanes: int, limit: int) -> tuple[str, ...]:
    """The road of a point. Raises `ParameterError`, with the number of the road, if it is not one of this shape."""
    try:
        lane_texts = lanes_of(road, limit)
    except ParameterError as error:
        raise ParameterError(f"road {number} of `start`: {error}") from None
    if len(lane_texts) != lanes or len(lane_texts[0]) != length:
        shape = f"{len(lane_texts)} x {len(lane_texts[0])}"
        raise ParameterError(f"road {number} of `start` has {shape} cells, and the sweep has {lanes} x {length}")
    return lane_texts


def cars_on(road: Iterable[str]) -> int:
    """The number of cars on a road that `lanes_of` has read."""
    return sum(len(lane) - lane.count(".") for lane in road)


def speeds_of(lane: str) -> list[Optional[int]]:
    """The speed in each cell of a lane, and None for an empty cell."""
    return [None if cell == "." else SPEEDS.index(cell) for cell in lane]


def _is_lane(item: object) -> bool:
    """Whether an item of a road is a lane, and not a cell."""
    return isinstance(item, str) or isinstance(item, Iterable) and getattr(item, "shape", None) != ()


def _items(road: Any) -> Union[str, Sequence[Any]]:
    """The lanes or the cells of a road: characters, or a list. Arrays of any library become lists of Python's
    numbers."""
    if hasattr(road, "__array__") and not hasattr(road, "tolist"):
        road = road.__array__()
    if hasattr(road, "tolist"):
        road = road.tolist()
    if isinstance(road, str):
        return str.__str__(road)
    if isinstance(road, (bytes, bytearray, Mapping, Set)) or not isinstance(road, Iterable):
        raise ParameterError(f"{_ROAD_FORM}, not {shown(road)}")
    return list(road)


def _lane_text(cells: Union[str, Sequence[Any]], limit: int) -> str:
    """A lane in the characters of a file. Raises `ParameterError` if a cell is not a speed up to the limit."""
    if isinstance(cells, str):
        others = set(cells) - set(SPEEDS[: limit + 1] + ".")
        if others:
            raise ParameterError(
                f"a lane has the character {min(others)!r}, and the limit is {limit} cells per step: "
                f"`.` is an empty cell, and {SPEEDS[0]} to {SPEEDS[limit]} are cars"
            )
        return cells
    return "".join([_character(cell, limit) for cell in cells])


def _character(cell: Any, limit: int) -> str:
    """The character of a cell."""
    if cell is None:
        return "."
    if isinstance(cell, bool):
        raise ParameterError(f"{_ROAD_FORM}: {cell} says whether a car is there, and not how fast it is")
    is_float_of_numpy = getattr(getattr(cell, "dtype", None), "kind", "") == "f"
    if is_float_of_numpy or isinstance(cell, float) and not isinstance(cell, Enum):
        cell = float(cell)
        if math.isnan(cell):
            return "."
        cell = int(cell) if cell.is_integer() else cell
    try:
        speed = checked_int("a speed", cell, -1)
    except ParameterError as error:
        raise ParameterError(f"{_ROAD_FORM}: {error}") from None
    if speed > limit:
        raise ParameterError(f"a car has the speed {shown(speed)}, and the limit is {limit} cells per step")
    return "." if speed < 0 else SPEEDS[speed]


def _refuse_occupancy(lanes: Sequence[str]) -> None:
    """Raises `ParameterError` if these speeds may be meant as 1 for a car and 0 for an empty cell."""
    if not any(set(lane) - {"0", "1"} for lane in lanes):
        raise ParameterError(
            "a list of only 0 and 1 is not a road, because 0 is a stopped car and not an empty cell: write None, NaN "
            "or -1 for an empty cell. If every cell has a car, write the characters of a file, for example "
            f"{lanes[0][:9]!r}"
        )
