"""Sums over the repetitions of a sweep, and how far their means are from exact ones."""
from __future__ import annotations

from collections.abc import Iterable, Sequence
from typing import NamedTuple, Optional

from trlab import Point


class Sums(NamedTuple):
    """Sums over repetitions of equally many steps: of each count, and of its square (`distance2` is the sum of the squares
    of the distances). `points` is the number of repetitions."""

    points: int
    steps: int
    distance: int
    distance2: int
    stopped: int
    stopped2: int
    changes: int
    changes2: int

    @classmethod
    def of(cls, points: Sequence[Point]) -> Sums:
        sums = []
        for counts_of_points in columns(points):
            sums += [sum(counts_of_points), sum(count**2 for count in counts_of_points)]
        return cls(len(points), points[0].steps, *sums)

    def together(self, others: Iterable[Sums]) -> Sums:
        """The sums over these and other repetitions."""
        points, _, *sums = (sum(column) for column in zip(self, *others))
        return Sums(points, self.steps, *sums)

    def mean(self, name: str) -> tuple[float, float]:
        """The mean per step of `distance`, `stopped` or `changes`, and its standard error."""
        total, sum_of_squares = getattr(self, name), getattr(self, f"{name}2")
        variance = (sum_of_squares - total**2 / self.points) / (self.points - 1)
        standard_error = (variance / self.points) ** 0.5
        return total / self.points / self.steps, standard_error / self.steps

    def z(self, name: str, exact: float) -> Optional[float]:
        """How many standard errors the mean is above the exact one; None if every repetition counted the same."""
        mean, error = self.mean(name)
        return (mean - exact) / error if error else None


def columns(points: Sequence[Point]) -> Iterable[Sequence[int]]:
    """The counts that are summed: for each kind of count, that of each repetition."""
    return zip(*((point.distance, point.stopped, point.changes) for point in points))
