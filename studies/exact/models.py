"""The models as their papers define them, with exact probabilities.

A model has a motion: the new speed of a car, by its view. On two lanes it also has a lane change, which all
cars decide at once before the motion. Nothing here is taken from trlab; both follow the papers."""
from __future__ import annotations

from dataclasses import dataclass
from fractions import Fraction
from typing import NamedTuple

Odds = dict[int, Fraction]
"""The probability of each new speed."""


class Seen(NamedTuple):
    """The view of a driver at the start of a motion, in cells and in cells per step."""

    speed: int
    gap: int  # empty cells up to the next car ahead
    leader: int  # speed of the next car ahead


class Side(NamedTuple):
    """The view of a driver before a lane change. The side cell is empty."""

    speed: int
    gap: int
    leader: int
    gap_other: int  # empty cells on the other lane up to the next car ahead, without the side cell
    gap_back: int  # the same down to the next car behind
    lane: int


def randomized(speed: int, p: Fraction) -> Odds:
    """Randomization: with probability p a car that moves is slower by 1."""
    if speed == 0:
        return {0: Fraction(1)}
    return {new: odds for new, odds in ((speed, 1 - p), (speed - 1, p)) if odds}


@dataclass(frozen=True)
class NagelSchreckenberg:
    """Nagel and Schreckenberg (1992)."""

    p: Fraction
    v_max: int

    def motion(self, car: Seen) -> Odds:
        speed = min(car.speed + 1, self.v_max)  # 1. acceleration
        speed = min(speed, car.gap)  # 2. slowing down due to other cars
        return randomized(speed, self.p)  # 3. randomization; 4. the car moves


@dataclass(frozen=True)
class VelocityDependent:
    """Barlovic, Santen, Schadschneider and Schreckenberg (1998): cars that are stopped brake with probability p0."""

    p: Fraction
    p0: Fraction
    v_max: int

    def motion(self, car: Seen) -> Odds:
        p = self.p0 if car.speed == 0 else self.p  # 0. the randomization depends on the speed before the step
        return NagelSchreckenberg(p, self.v_max).motion(car)


@dataclass(frozen=True)
class Rickert:
    """Rickert, Nagel, Schreckenberg and Latour (1996), symmetric, with l = l_other = v + 1 and l_back = v_max."""

    p: Fraction
    p_change: Fraction
    v_max: int

    def change(self, car: Side) -> Fraction:
        """The probability of a lane change."""
        look_ahead = car.speed + 1
        hindered = car.gap < look_ahead
        faster, safe = car.gap_other > look_ahead, car.gap_back > self.v_max
        return self.p_change if hindered and faster and safe else Fraction(0)

    def motion(self, car: Seen) -> Odds:
        return NagelSchreckenberg(self.p, self.v_max).motion(car)


@dataclass(frozen=True)
class Careful:
    """A rule of our own, `careful.rule`: velocity-dependent, and at most 1 cell per step behind a stopped car."""

    p: Fraction
    p0: Fraction
    v_max: int

    def motion(self, car: Seen) -> Odds:
        gap = car.gap if car.leader > 0 else min(car.gap, 1)
        return VelocityDependent(self.p, self.p0, self.v_max).motion(car._replace(gap=gap))


@dataclass(frozen=True)
class CarefulOnTwoLanes(Careful):
    """The same with a lane change of our own, `careful_change.rule`.

    A car leaves a leader that is no faster, for a lane with more room, if v_max cells are empty behind it there. From
    lane 0 it does so more often than from lane 1."""

    p_change: tuple[Fraction, Fraction]  # by lane

    def change(self, car: Side) -> Fraction:
        hindered = car.gap <= car.speed and car.leader <= car.speed
        faster, safe = car.gap_other > car.gap, car.gap_back >= self.v_max
        return self.p_change[car.lane] if hindered and faster and safe else Fraction(0)
