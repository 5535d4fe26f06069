"""The rings of the study: each model by its definition, and the rule of trlab that has to agree with it."""
from __future__ import annotations

from fractions import Fraction
from hashlib import sha256
from pathlib import Path
from typing import Any, NamedTuple

from trlab import Job, Nasch, Own, SlowToStart, Sweep
from trlab import Rickert as RickertRule

from .models import Careful, CarefulOnTwoLanes, NagelSchreckenberg, Rickert, VelocityDependent

HERE = Path(__file__).parent
QUARTER, HALF, THREE_QUARTERS = Fraction(1, 4), Fraction(1, 2), Fraction(3, 4)
CAREFUL = Own((HERE / "careful.rule").read_text())
CAREFUL_CHANGE = Own((HERE / "careful.rule").read_text(), (HERE / "careful_change.rule").read_text())


class Ring(NamedTuple):
    """A small ring: its model and rule, and its numbers of cars and cells."""

    name: str
    model: Any
    rule: Any
    length: int
    cars: int
    lanes: int = 1

    def flow(self, distance: Any) -> Any:
        """The flow in cars per step, from the cells that all cars drive per step."""
        return distance / (self.length * self.lanes)

    def key(self, number: int) -> str:
        """A random seed of its own for each ring and number."""
        return sha256(f"{self.name} {number}".encode()).hexdigest()

    def shape(self) -> dict[str, Any]:
        """The road as trlab takes it."""
        return {"limit": self.model.v_max, "length": self.length, "lanes": self.lanes, "rule": self.rule}

    def sweep(self, number: int, points: int, warm: int, measure: int) -> Sweep:
        """Independent repetitions."""
        return Sweep(**self.shape(), warm=warm, measure=measure, cars=points * [self.cars], key=self.key(number))

    def job(self, number: int, steps: int) -> Job:
        """One long run."""
        return Job(**self.shape(), cars=self.cars, steps=steps, key=self.key(number))


def nasch(p: Fraction, v_max: int, length: int, cars: int) -> Ring:
    name = f"nasch_{p.numerator}_{p.denominator}_v{v_max}_{cars}_on_{length}"
    return Ring(name, NagelSchreckenberg(p, v_max), Nasch(p), length, cars)


def vdr(p: Fraction, p0: Fraction, v_max: int, length: int, cars: int) -> Ring:
    name = f"vdr_{p.numerator}_{p.denominator}_v{v_max}_{cars}_on_{length}"
    return Ring(name, VelocityDependent(p, p0, v_max), SlowToStart(p, p0), length, cars)


def rickert(p: Fraction, p_change: Fraction, v_max: int, length: int, cars: int) -> Ring:
    name = f"rickert_{p.numerator}_{p.denominator}_v{v_max}_{cars}_on_2x{length}"
    return Ring(name, Rickert(p, p_change, v_max), RickertRule(p, p_change), length, cars, 2)


def careful(v_max: int, length: int, cars: int) -> Ring:
    return Ring(f"careful_v{v_max}_{cars}_on_{length}", Careful(QUARTER, THREE_QUARTERS, v_max), CAREFUL, length, cars)


def careful_on_two_lanes(v_max: int, length: int, cars: int) -> Ring:
    model = CarefulOnTwoLanes(QUARTER, THREE_QUARTERS, v_max, (HALF, QUARTER))
    return Ring(f"careful_v{v_max}_{cars}_on_2x{length}", model, CAREFUL_CHANGE, length, cars, 2)


RINGS = [
    nasch(QUARTER, 1, 8, 3),
    nasch(QUARTER, 1, 8, 4),
    nasch(QUARTER, 2, 10, 4),
    nasch(HALF, 2, 9, 3),
    nasch(QUARTER, 5, 10, 3),
    vdr(QUARTER, THREE_QUARTERS, 2, 10, 4),
    vdr(Fraction(1, 64), THREE_QUARTERS, 2, 10, 4),
    careful(3, 9, 4),
    rickert(QUARTER, HALF, 1, 7, 4),
    rickert(QUARTER, HALF, 2, 7, 3),
    rickert(HALF, Fraction(1), 1, 6, 5),
    careful_on_two_lanes(2, 8, 3),
]
"""The rings whose flow is compared."""

WALKS = [
    nasch(QUARTER, 1, 8, 4),
    nasch(QUARTER, 2, 10, 4),
    vdr(Fraction(1, 64), THREE_QUARTERS, 3, 8, 3),
    careful(3, 9, 4),
    rickert(QUARTER, HALF, 2, 7, 3),
    careful_on_two_lanes(2, 7, 3),
]
"""The rings whose transitions are counted."""
