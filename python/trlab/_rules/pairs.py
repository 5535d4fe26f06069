"""Whole numbers as pairs, because a register holds no negative number.

A number is the difference of a positive and a negative part, of which one is always 0. A part that is known to be 0
costs nothing. So `max(x, 0)` is the positive part, `min` and `max` are taken part by part, and sums and comparisons are
exact below 0."""
from __future__ import annotations

import ast
from collections.abc import Container, Sequence
from itertools import count
from typing import NamedTuple, Optional

from .emission import Emitter, Label, Operand, Place, Register


class Number(NamedTuple):
    """A number: its positive and its negative part, and `why` it may be below 0: the place of an expression."""

    plus: Operand
    minus: Operand = 0
    why: Optional[Place] = None


class Sum(NamedTuple):
    """Registers that are added, registers that are subtracted, and a constant."""

    plus: tuple[Register, ...]
    minus: tuple[Register, ...]
    constant: int

    def __sub__(self, other: Sum) -> Sum:
        return Sum(self.plus + other.minus, self.minus + other.plus, self.constant - other.constant)


ZERO = Sum((), (), 0)


def constant(number: int) -> Number:
    """A constant as a pair: 3 is (3, 0), and -3 is (0, 3)."""
    return Number(max(number, 0), max(-number, 0))


def summand(number: Number) -> Sum:
    """A number as a sum."""
    plus, of_plus = _register_and_constant(number.plus)
    minus, of_minus = _register_and_constant(number.minus)
    return Sum(plus, minus, of_plus - of_minus)


def _register_and_constant(part: Operand) -> tuple[tuple[Register, ...], int]:
    """A part of a number as registers to be added and a constant."""
    return ((), part) if isinstance(part, int) else ((part,), 0)


class Arithmetic:
    """Instructions for numbers. `below` has the numbers of the differences that may be negative: every other difference
    is a single `sub`."""

    def __init__(self, emitter: Emitter, below: Container[int]) -> None:
        self._emitter, self._below, self._differences = emitter, below, count()

    def total(self, registers: Sequence[Register], number: int) -> Operand:
        """The sum of registers and a number that is not negative."""
        if not registers:
            return number
        sum_so_far = registers[0]
        for other in registers[1:]:
            sum_so_far = self._emitter.new("add", sum_so_far, other)
        return self._emitter.new("add", sum_so_far, number) if number else sum_so_far

    def sides(self, terms: Sum) -> tuple[Operand, Operand]:
        """The two numbers whose difference is this sum."""
        return self.total(terms.plus, max(terms.constant, 0)), self.total(terms.minus, max(-terms.constant, 0))

    def difference(self, terms: Sum) -> Number:
        """A sum as a pair."""
        number = next(self._differences)
        plus, minus = self.sides(terms)
        if plus == 0 or minus == 0:
            return Number(plus, minus, self._emitter.place)
        if number not in self._below:
            return Number(self._emitter.new("sub", plus, minus, difference=number))
        return Number(self.excess(plus, minus), self.excess(minus, plus), self._emitter.place)

    def excess(self, first: Operand, second: Operand) -> Register:
        """How much the first is above the second, or 0, in a form that the verifier always accepts."""
        return self._emitter.new("sub", first, self._emitter.new("min", second, first))

    def product(self, number: Number, factor: int) -> Number:
        """The number times a constant, which may be negative."""
        plus, minus = (self._scaled("mul", part, abs(factor)) for part in (number.plus, number.minus))
        return Number(plus, minus, number.why) if factor >= 0 else Number(minus, plus, self._emitter.place)

    def quotient(self, number: Number, divisor: int) -> Number:
        """The quotient, rounded down, which means that a negative part is rounded up."""
        minus: Operand = 0
        if number.minus != 0:
            increased = self.total([self._emitter.held(number.minus)], divisor - 1)
            minus = self._scaled("div", increased, divisor)
        return Number(self._scaled("div", number.plus, divisor), minus, number.why)

    def remainder(self, number: Number, divisor: int) -> Number:
        """The number minus the largest multiple of the divisor that is not above it. It is never negative."""
        multiple = self.product(self.quotient(number, divisor), divisor)
        plus, minus = self.sides(summand(number) - summand(multiple))
        return Number(self.excess(plus, minus))

    def _scaled(self, name: str, part: Operand, by: int) -> Operand:
        """A part of a number, multiplied (`mul`) or divided (`div`) by a constant."""
        if isinstance(part, int):
            return part * by if name == "mul" else part // by
        if by == 0:
            return 0
        return part if by == 1 else self._emitter.new(name, part, constants=[by])

    def extreme(self, name: str, numbers: Sequence[Number]) -> Number:
        """The smallest or the largest number."""
        opposite = "max" if name == "min" else "min"
        plus = self._extreme_part(name, [number.plus for number in numbers])
        minus = self._extreme_part(opposite, [number.minus for number in numbers])
        first_negative = next((number for number in numbers if number.minus != 0), None)
        return Number(plus, minus, None if first_negative is None else first_negative.why)

    def size(self, number: Number) -> Operand:
        """The distance to 0."""
        return self._extreme_part("max", (number.plus, number.minus))

    def _extreme_part(self, name: str, parts: Sequence[Operand]) -> Operand:
        """The smallest or largest of several parts. Constants are compared here, and need at most one instruction."""
        constants = [part for part in parts if isinstance(part, int)]
        registers = [part for part in parts if isinstance(part, Register)]
        best_constant = {"min": min, "max": max}[name](constants) if constants else None
        # No part is below 0, so a minimum with 0 is 0, and a maximum with 0 changes nothing.
        if best_constant is not None and (not registers or name == "min" and best_constant == 0):
            return best_constant
        best_so_far = registers[0]
        for other in registers[1:]:
            best_so_far = self._emitter.new(name, best_so_far, other)
        return self._emitter.new(name, best_so_far, best_constant) if best_constant else best_so_far

    def jump_at_comparison(self, operator: ast.cmpop, difference: Sum, target: Label, when: bool) -> None:
        """Jumps if the truth of `left operator right` is `when`. The difference is right - left. Its sides are compared,
        because they are never below 0."""
        # left > right is the same as right < left.
        if isinstance(operator, (ast.Gt, ast.GtE)):
            difference = ZERO - difference
        right, left = self.sides(difference)
        if isinstance(operator, (ast.Eq, ast.NotEq)):
            self._jump_at_equality(left, right, target, when == isinstance(operator, ast.Eq))
        else:
            may_be_equal = isinstance(operator, (ast.LtE, ast.GtE))
            self.jump_at_order(left, right, target, when, may_be_equal=may_be_equal)

    def _jump_at_equality(self, left: Operand, right: Operand, target: Label, when: bool) -> None:
        """Jumps if the truth of `left == right` is `when`: they are equal if neither is above the other."""
        skip = Label()
        self.jump_at_order(left, right, skip if when else target, False, may_be_equal=True)
        self.jump_at_order(right, left, target, when, may_be_equal=True)
        self._emitter.label(skip)

    def jump_at_order(self, low: Operand, high: Operand, target: Label, when: bool, *, may_be_equal: bool) -> None:
        """Jumps if the truth of `low` < `high`, or of `low` <= `high` if they may be equal, is `when`."""
        if isinstance(low, int) and isinstance(high, int):
            is_true = low <= high if may_be_equal else low < high
            if is_true == when:
                self._emitter.emit("jump", target=target)
        elif isinstance(low, int):
            self._jump_at_least(high, low if may_be_equal else low + 1, target, when)
        elif isinstance(high, int):
            # `low` <= `high` is the opposite of `low` >= `high` + 1, and `low` < `high` that of `low` >= `high`.
            self._jump_at_least(low, high + 1 if may_be_equal else high, target, not when)
        elif when:
            self._emitter.emit("jle" if may_be_equal else "jlt", None, low, high, target=target)
        else:
            self._emitter.emit("jlt" if may_be_equal else "jle", None, high, low, target=target)

    def _jump_at_least(self, operand: Operand, least: int, target: Label, when: bool) -> None:
        """Jumps if the truth of `operand >= least` is `when`. The program has `least <= operand`, because the verifier
        learns from this how much may be subtracted from the operand."""
        if least <= 0:
            if when:
                self._emitter.emit("jump", target=target)
        elif when:
            self._emitter.emit("jle", None, least, operand, target=target)
        else:
            self._emitter.emit("jlt", None, operand, least, target=target)
