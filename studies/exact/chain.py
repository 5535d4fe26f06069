"""The stationary state of a small ring: its Markov chain of states up to rotation, solved exactly.

Grassmann, Taksar and Heyman (1985) eliminate the states one by one without a subtraction, here in fractions. Chains of
many states are solved by iteration in floating point numbers."""
from __future__ import annotations

from collections.abc import Sequence
from fractions import Fraction
from typing import Any, NamedTuple, Union

from .ring import EMPTY, State, steps

Number = Union[Fraction, float]
Row = dict[int, Fraction]
MAX_STATES = 256
"""The most states of a chain that is solved in fractions, unless the caller wants more."""


class Means(NamedTuple):
    """Means per step, over all cars of the ring: cells driven, stopped cars, lane changes."""

    distance: Number
    stopped: Number
    changes: Number


class Chain(NamedTuple):
    """The transition probabilities from each state, and the means over the steps from it."""

    rows: list[Row]
    means: list[Means]


def canonical(state: State) -> State:
    """The rotation of a state that comes last in the order of strings. So rotated rings are one state."""
    return max(tuple(lane[cell:] + lane[:cell] for lane in state) for cell in range(len(state[0])))


def first_state(length: int, lanes: int, cars: int) -> State:
    """Evenly spaced, stopped cars; the cells of two lanes are counted in turns."""
    taken = {car * length * lanes // cars for car in range(cars)}
    return tuple(
        "".join("0" if cell * lanes + lane in taken else EMPTY for cell in range(length)) for lane in range(lanes)
    )


def chain(first: State, model: Any) -> Chain:
    """The chain of all states that the ring can reach."""
    numbers = {canonical(first): 0}
    states, rows, means = [canonical(first)], [], []
    for state in states:
        row: Row = {}
        distance = stopped = changes = Fraction(0)
        for probability, after, cells, crossed in steps(state, model):
            after = canonical(after)
            if after not in numbers:
                numbers[after] = len(states)
                states.append(after)
            row[numbers[after]] = row.get(numbers[after], Fraction(0)) + probability
            distance += probability * cells
            stopped += probability * sum(lane.count("0") for lane in after)
            changes += probability * crossed
        rows.append(row)
        means.append(Means(distance, stopped, changes))
    return Chain(rows, means)


def by_elimination(rows: Sequence[Row]) -> list[Fraction]:
    """The stationary probabilities in fractions. (If states are left to which the chain never returns, they have 0.)"""
    left = [dict(row) for row in rows]
    shares: list[Row] = []
    last = len(left) - 1
    while last > 0:
        to_others = sum(chance for state, chance in left[last].items() if state < last)
        if not to_others:  # the chain never leaves the states from here on
            break
        shares.append(eliminated(left, last, to_others))
        last -= 1
    weights = [Fraction(0)] * last + [Fraction(1)]
    for share in reversed(shares):
        weights.append(sum((weights[state] * part for state, part in share.items()), Fraction(0)))
    total = sum(weights)
    return [weight / total for weight in weights]


def eliminated(left: list[Row], last: int, to_others: Fraction) -> Row:
    """Leaves out the last state: the others go straight to its next states. Returns how often each of them came to it,
    as a share of the times that it left."""
    share: Row = {}
    for state in range(last):
        if last in left[state]:
            share[state] = left[state].pop(last) / to_others
            for target, chance in left[last].items():
                if target < last:
                    left[state][target] = left[state].get(target, Fraction(0)) + share[state] * chance
    return share


def arrows(rows: Sequence[Row]) -> list[list[tuple[int, float]]]:
    """For each state the states that lead to it, each with the probability of that transition."""
    sources: list[list[tuple[int, float]]] = [[] for _ in rows]
    for state, row in enumerate(rows):
        for target, chance in row.items():
            sources[target].append((state, float(chance)))
    return sources


def step(now: Sequence[float], sources: Sequence[Sequence[tuple[int, float]]]) -> list[float]:
    """The probabilities of the states one step later, from the states that lead to each."""
    return [sum([now[state] * chance for state, chance in sources_of_state]) for sources_of_state in sources]


def by_iteration(rows: Sequence[Row], accuracy: float = 1e-16) -> list[float]:
    """The stationary probabilities in floating point numbers: steps from equal ones, until none changes them."""
    sources, now, largest_change = arrows(rows), [1 / len(rows)] * len(rows), 1.0
    while largest_change > accuracy:
        after = step(now, sources)
        largest_change = max(abs(new - old) for new, old in zip(after, now))
        now = after
    total = sum(now)
    return [share / total for share in now]


def expected_distance(chain: Chain, steps: int) -> float:
    """The mean of the cells driven in the step after `steps` steps from the first state."""
    sources, now = arrows(chain.rows), [1.0] + [0.0] * (len(chain.rows) - 1)
    for _ in range(steps):
        now = step(now, sources)
    return sum(share * float(means.distance) for share, means in zip(now, chain.means))


def stationary(chain: Chain, most_states: int = MAX_STATES) -> Means:
    """The means of the stationary state, as fractions if the chain has at most `most_states` states."""
    shares: Sequence[Number]
    if len(chain.rows) <= most_states:
        shares = by_elimination(chain.rows)
    else:
        shares = by_iteration(chain.rows)
    return Means(*(weighted_sum(shares, means_of_states) for means_of_states in zip(*chain.means)))


def weighted_sum(weights: Sequence[Number], values: Sequence[Number]) -> Number:
    """The sum of values, each times its weight."""
    return sum(weight * value for weight, value in zip(weights, values))
