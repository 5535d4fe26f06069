"""The flow without randomization, and the step from which on a lane has it."""
from __future__ import annotations

from fractions import Fraction

from .._inputs.numbers import MAX_CELLS, MAX_SPEED, Density, checked_int, checked_share
from .._inputs.rules import Nasch, Rule
from .rules import steps_to_accelerate


def triangle(limit: int, density: Density) -> Fraction:
    """The flow of one lane under `Nasch(0)` or `gap_rule`, in cars per step: min(limit * density, 1 - density). Every
    initial state reaches it (see `relaxed_from`), and no road has more under any rule.

    `limit` is the maximum speed, 1 to 35 cells per step, and `density` is in cars per cell, 0 to 1. A float is taken at
    its exact binary value, so write "3/20" for 3 cars on 20 cells. Two lanes have the mean of the flows of each by
    itself. Raises `ParameterError` if a number is out of range.

    Source: Krug and Spohn (1988, Phys. Rev. A 38, 4271) for limit 1, Fukui and Ishibashi (1996, J. Phys. Soc. Japan 65,
    1868) for `gap_rule`. Proved as `nasch_reaches_triangle`, `rule_184_reaches_triangle` and `gap_reaches_triangle`,
    and as a bound for every rule as `run_stays_under_triangle`."""
    fastest = checked_int("limit", limit, 1, MAX_SPEED)
    exact_density = Fraction(checked_share("density", density))
    return min(fastest * exact_density, 1 - exact_density)


def relaxed_from(limit: int, length: int, cars: int, rule: Rule = Nasch(0)) -> int:
    """The step from which on every lane with these cells and cars has the flow of the `triangle`, from any initial
    state: a `warm` that suffices. With N cars and E empty cells it is a delay, less one, plus min(N, E / limit), which is
    rounded up and at least 1. The delay is `limit` under `Nasch(0)`, but 0 if the limit is 1 or the rule is `gap_rule`.

    `limit` is 1 to 35 cells per step, `length` 1 to 100,000 cells, and `cars` 0 to `length`. Raises `ParameterError` if
    a number is out of range, or for another rule.

    Proved as `nasch_reaches_triangle`, `rule_184_reaches_triangle` and `gap_reaches_triangle`. From one queue no
    smaller step suffices under `gap_rule` or with limit 1; for `Nasch(0)` with larger limits this is open. Evenly
    spaced, stopped cars need only limit - 1 steps (`even_cars_flow_on_triangle`)."""
    fastest = checked_int("limit", limit, 1, MAX_SPEED)
    cells = checked_int("length", length, 1, MAX_CELLS)
    count = checked_int("cars", cars, 0, cells)
    delay = steps_to_accelerate(rule, fastest)
    steps_of_one_car = -(-min(fastest * count, cells - count) // fastest)
    return max(delay, delay - 1 + steps_of_one_car)
