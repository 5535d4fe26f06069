"""The stationary state of the Nagel-Schreckenberg model with v_max = 1 on a ring, and its flow."""
from __future__ import annotations

from collections.abc import Iterator
from fractions import Fraction
from typing import NamedTuple

from .._errors import ParameterError
from .._inputs.numbers import ALWAYS, MAX_CELLS, Probability, checked_int, parts, probability, shown
from .._inputs.roads import Lane, lanes_of

NEGLIGIBLE = 1e-22
"""A term of a sum that is smaller than the largest one by this factor does not change the sum in double precision."""


def braking_probability(brake: Probability) -> Fraction:
    """The braking probability that trlab simulates for `brake`: the nearest multiple of 1 / 2**31, as in files. For
    example, "1/4" is 1/4, but "1/3" becomes 715827883 / 2**31. The results of this module are exact for this number,
    which may differ from yours by 1 / 2**32.

    `brake` is 0 to 1, as in `Nasch`. Raises `ParameterError` for anything else, and for a number so close to 0 or 1
    that it would become 0 or 1."""
    return Fraction(parts(probability("brake", brake)), ALWAYS)


def flow(length: int, cars: int, brake: Probability) -> Fraction:
    """The mean flow of the Nagel-Schreckenberg model with v_max = 1 in its stationary state, which is known on every
    ring, however small. With N cars on n cells, E of them empty, it is (1 - q) * S / Z cars per step and lane, where

        S = sum over k from 1 to min(N, E) of C(N - 1, k - 1) * C(E - 1, k - 1) * q**(N - k)
        Z = sum of the same terms, each times n / k

    and q is `braking_probability(brake)`. With q = 0 it is min(N, E) / n, and with q = 1 it is 0.

    `length` is n, 1 to 100,000 cells, and `cars` is N, 0 to n. On a long ring the fraction has many digits, and takes
    seconds from about 20,000 cells on; `flow_as_float` does not. Raises `ParameterError` if a number is out of range.

    Source: Schreckenberg, Schadschneider, Nagel and Ito (1995, Phys. Rev. E 51, 2939) and Evans (1997, J. Phys. A 30,
    5669). Proved as `stationary_flow_is_exact`, and for q = 0 as `rule_184_reaches_triangle`. The mean is over all
    random words: it is not proved that the words of a key are as good as random ones, or that runs approach this
    state."""
    ring = _Ring.of(length, cars, brake)
    most = min(ring.cars, ring.empty)
    if most == 0 or ring.brake == 0:
        return Fraction(most, ring.length)
    sums = ring.sums()
    return (1 - ring.brake) * Fraction(ring.cars * sums.moving, ring.length * sums.roads)


def flow_as_float(length: int, cars: int, brake: Probability) -> float:
    """The same as `flow`, as a float, within milliseconds for a ring of any length. Both sums are added up in floats,
    from their largest term outwards. The relative error is below 1e-12, which is tested and not proved.
    Arguments, errors and source are those of `flow`."""
    ring = _Ring.of(length, cars, brake)
    most = min(ring.cars, ring.empty)
    if most == 0 or ring.brake == 0:
        return most / ring.length
    moving = roads = 0.0
    for k, term in ring.float_terms():
        moving, roads = moving + term, roads + term / k
    return float(1 - ring.brake) * moving / (ring.length * roads)


def clusters(length: int, cars: int, brake: Probability) -> dict[int, Fraction]:
    """The probability of each number k of clusters (blocks of neighbouring cars, so that k cars have an empty cell
    ahead) in the stationary state of the Nagel-Schreckenberg model with v_max = 1. It is proportional to

        n / k * C(N - 1, k - 1) * C(E - 1, k - 1) * q**(N - k)

    with the symbols, arguments and source of `flow`. Without cars, or without empty cells, k is 0. Raises
    `ParameterError` if a number is out of range, or if all weights are 0 (see `stationary_weight`).

    Proved as `nasch_has_stationary_state`, over all random words, and the number of roads with k clusters as
    `stationary_flow_is_exact`, clause `clusters`."""
    ring = _Ring.of(length, cars, brake)
    ring.need_weight()
    if min(ring.cars, ring.empty) == 0:
        return {0: Fraction(1)}
    roads = ring.sums().roads
    return {term.k: Fraction(term.ways * ring.scaled_weight(term.k), roads) for term in ring.terms()}


def stationary_weight(lane: Lane, brake: Probability) -> Fraction:
    """The weight of a lane in the stationary state of the Nagel-Schreckenberg model with v_max = 1: a factor q, which
    is `braking_probability(brake)`, for each car with a car right ahead. If roads have probabilities proportional to
    their weights, they still have them after a step.

    `lane` is written as in a `Job`, for example "0..00."; its speeds do not matter. Raises `ParameterError` if it is
    not one lane, or if `brake` is not a probability. If `brake` is 0 and there are more cars than empty cells, every
    lane has the weight 0.

    Source: as for `flow`. Proved as `nasch_has_stationary_state`, over all random words; if `brake` is between 0 and 1,
    no other probabilities stay the same (clause `unique`)."""
    road = _lane(lane)
    return braking_probability(brake) ** (len(road) - road.count(".") - _clusters_of(road))


def stationary_probability(lane: Lane, brake: Probability) -> Fraction:
    """The probability of a lane in the stationary state: its `stationary_weight`, divided by the sum Z of the weights
    of all lanes with as many cells and cars (see `flow`). Rotated lanes are different ones. Arguments, errors and law
    are those of `stationary_weight`; if all weights are 0, it raises `ParameterError`."""
    road = _lane(lane)
    ring = _Ring.of(len(road), len(road) - road.count("."), brake)
    ring.need_weight()
    if min(ring.cars, ring.empty) == 0:
        return Fraction(1)
    weight = ring.scaled_weight(_clusters_of(road))
    return Fraction(ring.cars * weight, ring.length * ring.sums().roads)


class _Term(NamedTuple):
    """A number k of clusters, with C(N - 1, k - 1) * C(E - 1, k - 1), and the same times N / k."""

    k: int
    splits: int
    ways: int


class _Sums(NamedTuple):
    """The sums S and Z of `flow`, each times the number that makes the weights whole, and Z also times N / n."""

    moving: int
    roads: int


class _Ring(NamedTuple):
    """A ring with its cars and its braking probability, all checked."""

    length: int
    cars: int
    brake: Fraction

    @classmethod
    def of(cls, length: int, cars: int, brake: Probability) -> _Ring:
        """A ring of numbers as users give them. Raises `ParameterError` if one is out of range."""
        cells = checked_int("length", length, 1, MAX_CELLS)
        return cls(cells, checked_int("cars", cars, 0, cells), braking_probability(brake))

    @property
    def empty(self) -> int:
        """The number of empty cells."""
        return self.length - self.cars

    def need_weight(self) -> None:
        """Raises `ParameterError` if the weights of all roads are 0."""
        if self.brake == 0 and self.cars > self.empty:
            raise ParameterError(
                f"with brake=0 and {self.cars} cars on {self.length} cells, every road has the weight 0, because some "
                "car has a car right ahead: `flow` and `trlab.exact.triangle` give the flow without randomization"
            )

    def terms(self) -> Iterator[_Term]:
        """The terms of both sums for each number of clusters."""
        splits = 1
        for k in range(1, min(self.cars, self.empty) + 1):
            yield _Term(k, splits, ways=splits * self.cars // k)
            splits = splits * (self.cars - k) * (self.empty - k) // (k * k)

    def scaled_weight(self, k: int) -> int:
        """The weight of a road with k clusters, q**(N - k), times the number that makes the weights of all k whole."""
        most = min(self.cars, self.empty)
        weight: int = self.brake.numerator ** (most - k) * self.brake.denominator**k
        return weight

    def sums(self) -> _Sums:
        """The sums of both terms times the scaled weight, by Horner's rule."""
        moving, roads, power = 0, 0, 1
        for term in self.terms():
            power *= self.brake.denominator
            moving = moving * self.brake.numerator + term.splits * power
            roads = roads * self.brake.numerator + term.ways * power
        return _Sums(moving, roads)

    def largest_term(self) -> int:
        """The k for which C(N - 1, k - 1) * C(E - 1, k - 1) / q**k is largest: terms grow up to it, and then fall."""
        low, high = 1, min(self.cars, self.empty)
        while low < high:
            middle = (low + high) // 2
            if self.growth(middle) > 1:
                low = middle + 1
            else:
                high = middle
        return low

    def growth(self, k: int) -> float:
        """The term of k + 1 divided by that of k."""
        return (self.cars - k) * (self.empty - k) * self.brake.denominator / (k * k * self.brake.numerator)

    def float_terms(self) -> Iterator[tuple[int, float]]:
        """Each k with its term as a share of the largest one, from the largest one up and then down, without negligible
        ones."""
        largest, term = self.largest_term(), 1.0
        yield largest, term
        for k in range(largest, min(self.cars, self.empty)):
            term *= self.growth(k)
            if term < NEGLIGIBLE:
                break
            yield k + 1, term
        term = 1.0
        for k in range(largest - 1, 0, -1):
            term /= self.growth(k)
            if term < NEGLIGIBLE:
                break
            yield k, term


def _lane(lane: Lane) -> str:
    """One lane in the characters of a file."""
    lanes = lanes_of(lane)
    if len(lanes) != 1:
        raise ParameterError(f"the stationary state is that of one lane, not of {len(lanes)}: {shown(lane)}")
    return lanes[0]


def _clusters_of(lane: str) -> int:
    """The number of cars with an empty cell ahead."""
    return sum(cell != "." and ahead == "." for cell, ahead in zip(lane, lane[1:] + lane[:1]))
