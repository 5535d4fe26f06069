"""Every transition of a long run, counted and compared with its exact probability by a chi-square test.

Given the number of visits of each state, the next states are independent draws, so the sums of all states add up to one
chi-square (Billingsley 1961)."""
from __future__ import annotations

from collections import Counter
from collections.abc import Iterable, Mapping
from fractions import Fraction
from statistics import NormalDist
from typing import Any, NamedTuple

from .ring import State, next_states

LEAST_EXPECTED = 5
"""Next states that are expected less often than this are counted together."""


class Verdict(NamedTuple):
    """The chi-square of a run and its degrees of freedom, the states seen, the transitions seen (each counted once),
    and how often the run made a transition of probability 0."""

    chi_square: float
    freedom: int
    states: int
    transitions: int
    impossible: int

    def share_below(self) -> float:
        """The probability of a smaller chi-square, by the cube root of Wilson and Hilferty (1931)."""
        width = 2 / (9 * self.freedom)
        return NormalDist(1 - width, width**0.5).cdf((self.chi_square / self.freedom) ** (1 / 3))


def counted(states: Iterable[State]) -> dict[State, Counter[State]]:
    """How often each state was followed by each other one."""
    found: dict[State, Counter[State]] = {}
    before = None
    for state in states:
        if before is not None:
            found.setdefault(before, Counter())[state] += 1
        before = state
    return found


def groups(odds: Mapping[State, Fraction], visits: int) -> list[list[State]]:
    """The next states, from the rarest on, in groups that are expected often enough."""
    found: list[list[State]] = [[]]
    expected = 0.0
    for state in sorted(odds, key=lambda it: odds[it]):
        if expected >= LEAST_EXPECTED:
            found.append([])
            expected = 0.0
        found[-1].append(state)
        expected += float(odds[state]) * visits
    if expected < LEAST_EXPECTED and len(found) > 1:
        last = found.pop()
        found[-1] += last
    return found


def judged(counts: Mapping[State, Counter[State]], model: Any) -> Verdict:
    """The chi-square of all transitions that were counted."""
    chi_square, freedom, impossible = 0.0, 0, 0
    for before, after in counts.items():
        odds, visits = next_states(before, model), sum(after.values())
        impossible += sum(times for state, times in after.items() if state not in odds)
        grouped = groups(odds, visits)
        freedom += len(grouped) - 1
        for group in grouped if len(grouped) > 1 else []:
            expected = visits * float(sum(odds[state] for state in group))
            chi_square += (sum(after[state] for state in group) - expected) ** 2 / expected
    return Verdict(chi_square, freedom, len(counts), sum(map(len, counts.values())), impossible)
