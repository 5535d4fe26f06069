"""The known flow of the Nagel-Schreckenberg model with v_max = 1, which is the parallel TASEP on a ring. It shares no code with
`trlab.exact`, and is compared with it in a test."""
from __future__ import annotations

from math import exp, log, sqrt
from random import Random
from typing import Optional


def flow_of_long_ring(p: float, density: float) -> float:
    """Flow in cars per step on an infinite ring (Schreckenberg, Schadschneider, Nagel and Ito 1995)."""
    return (1 - sqrt(1 - 4 * (1 - p) * density * (1 - density))) / 2


def weights(p: float, length: int, cars: int) -> list[float]:
    """The stationary probabilities of 1, 2, .. blocks of cars on a ring, with 1 car at least and 1 empty cell.

    The paper's solution gives all states with m blocks the same weight, 1 / p^m, and there are
    (length / m) C(cars - 1, m - 1) C(empty - 1, m - 1) of them."""
    empty = length - cars
    logarithms = [0.0]
    for m in range(1, min(cars, empty)):
        logarithms.append(logarithms[-1] + log((cars - m) * (empty - m) / (m * (m + 1) * p)))
    greatest = max(logarithms)
    found = [exp(it - greatest) for it in logarithms]
    total = sum(found)
    return [it / total for it in found]


def flow_of_ring(p: float, length: int, cars: int) -> float:
    """Flow in cars per step on a ring: in each block of cars one can move, and does so with probability 1 - p."""
    return (1 - p) * sum(m * share for m, share in enumerate(weights(p, length, cars), 1)) / length


def stationary_road(p: float, length: int, cars: int, numbers: Random) -> list[Optional[int]]:
    """A road drawn from the stationary state, as `trlab` takes it.

    All cars are stopped: for v_max = 1 the speeds of the step before do not matter."""
    shares = weights(p, length, cars)
    (blocks,) = numbers.choices(range(1, len(shares) + 1), shares)
    cells: list[Optional[int]] = []
    for taken, free in zip(parts(cars, blocks, numbers), parts(length - cars, blocks, numbers)):
        cells += [0] * taken + [None] * free
    turn = numbers.randrange(length)
    return cells[turn:] + cells[:turn]


def parts(whole: int, count: int, numbers: Random) -> list[int]:
    """A whole number cut into `count` parts, each at least 1; all ways of cutting are equally likely."""
    cuts = [0, *sorted(numbers.sample(range(1, whole), count - 1)), whole]
    return [right - left for left, right in zip(cuts, cuts[1:])]
