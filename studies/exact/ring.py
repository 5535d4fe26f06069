"""Every next state of a ring, with its exact probability: all lane changes at once, then all motions at once.

A state is a tuple of lanes, and a lane is a string as in the papers' figures: `.` is an empty cell, a digit a car and
its speed."""
from __future__ import annotations

from collections.abc import Iterator
from fractions import Fraction
from functools import lru_cache
from itertools import product
from typing import Any, NamedTuple

from .models import Seen, Side

State = tuple[str, ...]
EMPTY = "."


class Outcome(NamedTuple):
    """One possible outcome of a step."""

    probability: Fraction
    state: State
    distance: int  # cells driven by all cars
    changes: int  # lane changes


def cars_on(lane: str) -> Iterator[int]:
    """The cells of the cars."""
    return (cell for cell, character in enumerate(lane) if character != EMPTY)


def cars_of(state: State) -> list[tuple[int, int]]:
    """The lane and the cell of each car."""
    return [(number, cell) for number, lane in enumerate(state) for cell in cars_on(lane)]


def gap(lane: str, cell: int, direction: int = 1) -> int:
    """The number of empty cells from a cell to the next car, ahead (direction 1) or behind (direction -1)."""
    other_cells = len(lane) - 1
    for empty in range(other_cells):
        if lane[(cell + direction * (empty + 1)) % len(lane)] != EMPTY:
            return empty
    return other_cells


def leader(lane: str, cell: int) -> int:
    """The speed of the next car ahead of a car; its own speed if there is no other."""
    return int(lane[(cell + gap(lane, cell) + 1) % len(lane)])


def lane_of(length: int, speeds: dict[int, int]) -> str:
    """The lane with cars of these speeds, by cell."""
    return "".join(str(speeds[cell]) if cell in speeds else EMPTY for cell in range(length))


def motions(state: State, model: Any) -> Iterator[Outcome]:
    """All ways in which the cars can move."""
    cars, length = cars_of(state), len(state[0])
    # For each car its possible speeds, with their probabilities.
    choices = []
    for number, cell in cars:
        lane = state[number]
        seen = Seen(int(lane[cell]), gap(lane, cell), leader(lane, cell))
        choices.append(model.motion(seen).items())
    for chosen in product(*choices):
        probability, distance = Fraction(1), 0
        lanes: list[dict[int, int]] = [{} for _ in state]
        for (number, cell), (speed, chance) in zip(cars, chosen):
            lanes[number][(cell + speed) % length] = speed
            probability *= chance
            distance += speed
        yield Outcome(probability, tuple(lane_of(length, lane) for lane in lanes), distance, 0)


def side(state: State, number: int, cell: int) -> Side:
    """The view of a car before a lane change."""
    lane, other = state[number], state[1 - number]
    back = gap(other, cell, -1)
    return Side(int(lane[cell]), gap(lane, cell), leader(lane, cell), gap(other, cell), back, number)


def chance_to_change(state: State, number: int, cell: int, model: Any) -> Fraction:
    """The probability that a car changes lanes: 0 if its side cell is occupied."""
    if state[1 - number][cell] != EMPTY:
        return Fraction(0)
    chance: Fraction = model.change(side(state, number, cell))
    return chance


def lane_changes(state: State, model: Any) -> Iterator[Outcome]:
    """All ways in which the cars can change lanes."""
    if len(state) == 1:
        yield Outcome(Fraction(1), state, 0, 0)
        return
    cars, length = cars_of(state), len(state[0])
    # For each car its possible lanes, with their probabilities.
    choices = []
    for number, cell in cars:
        change = chance_to_change(state, number, cell, model)
        lanes_of_car = [(1 - number, change), (number, 1 - change)]
        choices.append([(new_number, chance) for new_number, chance in lanes_of_car if chance > 0])
    for chosen in product(*choices):
        probability, changes = Fraction(1), 0
        lanes: list[dict[int, int]] = [{} for _ in state]
        for (number, cell), (new_number, chance) in zip(cars, chosen):
            lanes[new_number][cell] = int(state[number][cell])
            probability *= chance
            changes += new_number != number
        yield Outcome(probability, tuple(lane_of(length, lane) for lane in lanes), 0, changes)


def steps(state: State, model: Any) -> Iterator[Outcome]:
    """All possible outcomes of a step; several may end in the same state."""
    for changed in lane_changes(state, model):
        for moved in motions(changed.state, model):
            yield Outcome(changed.probability * moved.probability, moved.state, moved.distance, changed.changes)


@lru_cache(maxsize=None)
def next_states(state: State, model: Any) -> dict[State, Fraction]:
    """The probability of each next state."""
    probabilities: dict[State, Fraction] = {}
    for outcome in steps(state, model):
        probabilities[outcome.state] = probabilities.get(outcome.state, Fraction(0)) + outcome.probability
    return probabilities
