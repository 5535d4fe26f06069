"""Initial states: the cells and speeds of the cars at the start of a job.

The cells of a road are counted across its lanes: on two lanes cell 0 is on lane 0, cell 1 next to it on lane 1,
cell 2 on lane 0 and so on."""
from __future__ import annotations

import random as _random
import sys
import warnings
from collections.abc import Iterable, Iterator
from contextlib import contextmanager
from contextvars import ContextVar
from dataclasses import dataclass, replace
from math import gcd
from types import FrameType
from typing import Optional

from .._errors import ParameterError, TrlabWarning
from .numbers import MAX_KEY, MAX_SPEED, checked_int, derived_key, shown, store
from .roads import SPEEDS as SPEEDS

PLACEMENTS = ("even", "jammed", "random")

MAX_EXAMPLES = 3
"""The maximum number of examples in a warning about lanes."""


@dataclass(frozen=True)
class InitialState:
    """An initial state: `even`, `moving`, `jammed` or `random_cells(seed)`. `placement` is "even", "jammed" or
    "random"; `speed` and `seed` are as in `random_cells`."""

    placement: str
    speed: Optional[int] = 0
    seed: Optional[int] = None

    def __post_init__(self) -> None:
        if not isinstance(self.placement, str) or self.placement not in PLACEMENTS:
            raise ParameterError(f"a placement is one of {', '.join(PLACEMENTS)}, not {shown(self.placement)}")
        store(self, placement=next(name for name in PLACEMENTS if name == self.placement))
        if self.speed is not None:
            store(self, speed=checked_int("speed", self.speed, 0, MAX_SPEED))
        if self.placement == "random":
            store(self, seed=checked_int("seed", self.seed, 0, MAX_KEY))
        elif self.seed is not None:
            raise ParameterError(f"a seed is for random cells only, not for {self.placement!r}")

    def need_limit(self, limit: int) -> None:
        # Raises `ParameterError` if the cars are faster than the limit.
        if self.speed is not None and self.speed > limit:
            raise ParameterError(f"all cars start with the speed {self.speed}, and the limit is {limit} cells per step")

    def occupied_cells(self, cars: int, cells: int) -> Iterable[int]:
        # The cells of `cars` cars on `cells` cells, which are counted across the lanes.
        if self.placement == "random":
            numbers = _random.Random(self.seed)
            order = sorted((numbers.random(), cell) for cell in range(cells))
            return [cell for _, cell in order[:cars]]
        return range(cars) if self.placement == "jammed" else [car * cells // cars for car in range(cars)]

    def on_lanes(self, cars: int, length: int, lanes: int, limit: int) -> tuple[str, ...]:
        # The lanes of a road with `cars` cars in total, as in a file.
        road = [["."] * length for _ in range(lanes)]
        character = SPEEDS[limit if self.speed is None else self.speed]
        for cell in self.occupied_cells(cars, length * lanes):
            road[cell % lanes][cell // lanes] = character
        return tuple("".join(lane) for lane in road)

    def of_point(self, number: int) -> InitialState:
        # The initial state of a point of a sweep, from 0 on: random cells are drawn for each point.
        # Their seed is `derived_key("seed", seed, number)`, read as a hexadecimal number.
        if self.seed is None:
            return self
        return replace(self, seed=int(derived_key("seed", self.seed, number), 16))


even = InitialState("even")
"""Evenly spaced and stopped, the default. On two lanes the cells are counted across the lanes, so that more cars may be
on lane 0 than on lane 1: all of them if their number divides the lane length. If the lanes differ by more than one car,
the job or sweep issues a `TrlabWarning` with the numbers."""

moving = InitialState("even", None)
"""Evenly spaced, at the maximum speed, on the same cells as with `even`."""

jammed = InitialState("jammed")
"""Stopped in one block, on the first cells of the road."""


NAMES = {*PLACEMENTS, "moving", "jam", "random_cells"}
"""Words that are probably meant as an initial state, although a lane of fast cars can have these characters too."""


def need_no_name(start: object) -> None:
    """Raises `ParameterError` if `start` is the name of an initial state as a string."""
    if isinstance(start, str) and start in NAMES:
        states = "even, moving, jammed or random_cells(seed), without quotation marks"
        raise ParameterError(f"`start` is a road, or {states}, not {shown(start)}")


def random_cells(seed: int, speed: Optional[int] = 0) -> InitialState:
    """Uniformly random cells, the same in every version of Python. `seed`, 0 to 2**256 - 1, is independent of `key`.
    `speed` is the initial speed of all cars in cells per step, 0 to 35; None means the maximum speed. Raises
    `ParameterError` if a number is out of range."""
    return InitialState("random", speed, seed)


def surplus(cars: int, length: int) -> int:
    """How many more cars are on lane 0 than on lane 1, if `cars` cars are evenly spaced on two lanes of `length` cells.

    The cells of the cars repeat `gcd(cars, 2 * length)` times. If such a period has an even number of cells, one more
    of its cells with a car is on lane 0 than on lane 1; if it is odd, every second period begins on lane 1."""
    periods = gcd(cars, 2 * length)
    return periods if cars and 2 * length // periods % 2 == 0 else 0


def halved(cars: int, length: int) -> list[int]:
    """The nearest numbers of cars below and above this one for which, evenly spaced on two lanes, at most one more car
    is on lane 0."""
    below = next(count for count in range(cars, -1, -1) if surplus(count, length) <= 1)
    above = next((count for count in range(cars, 2 * length + 1) if surplus(count, length) <= 1), below)
    return sorted({below, above})


_IS_SILENT: ContextVar[bool] = ContextVar("trlab_no_warning_of_lanes", default=False)


@contextmanager
def no_warning_of_lanes() -> Iterator[None]:
    """Inputs that are made in this block give no warning about their lanes, because the input that they are made from
    has given it."""
    token = _IS_SILENT.set(True)
    try:
        yield
    finally:
        _IS_SILENT.reset(token)


def warn_of_uneven_lanes(start: object, counts: Iterable[int], length: int, lanes: int) -> None:
    """Warns if evenly spaced cars are not halved between two lanes."""
    if lanes != 2 or not isinstance(start, InitialState) or start.placement != "even" or _IS_SILENT.get():
        return
    uneven = [cars for cars in dict.fromkeys(counts) if surplus(cars, length) > 1]
    if not uneven:
        return
    examples = "; ".join(_cars_by_lane(cars, length) for cars in uneven[:MAX_EXAMPLES])
    further = len(uneven) - MAX_EXAMPLES
    others = f"; further uneven numbers of cars: {further}" if further > 0 else ""
    near = " or ".join(map(str, halved(uneven[0], length)))
    warnings.warn(
        f"evenly spaced on two lanes of {length} cells, {examples}{others}: use `start=random_cells(seed)`, or {near} "
        f"instead of {uneven[0]} cars",
        TrlabWarning,
        stacklevel=_level_of_user(),
    )


def _cars_by_lane(cars: int, length: int) -> str:
    """How evenly spaced cars are distributed over two lanes, as a part of a sentence."""
    difference = surplus(cars, length)
    return f"{cars} cars are {(cars + difference) // 2} on lane 0 and {(cars - difference) // 2} on lane 1"


def _level_of_user() -> int:
    """The `stacklevel` for a warning of the caller that points to the line outside of this package, also through
    `dataclasses.replace`."""
    frame: Optional[FrameType] = sys._getframe(1)
    level = 0
    while frame is not None and frame.f_globals.get("__name__", "").split(".")[0] in ("trlab", "dataclasses"):
        frame, level = frame.f_back, level + 1
    return level + 1 if frame is not None else 1
