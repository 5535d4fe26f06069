"""Expressions that have a value. True and false are 1 and 0, as in Python."""
from __future__ import annotations

import ast
from abc import abstractmethod
from collections.abc import Callable
from fractions import Fraction
from typing import Any, Union

from .emission import Label, Register
from .names import Flag, Names, Value, Variable
from .pairs import ZERO, Number, Sum, constant, summand
from .reading import plain

INPUTS = {
    "motion": ("speed", "limit", "gap", "headspeed"),
    "change": ("speed", "limit", "gap", "headspeed", "sidegap", "sideback", "lane"),
}
SIGNS = (ast.UAdd, ast.USub)


class Expressions(Names):
    """Values of expressions."""

    @abstractmethod
    def branch(self, node: ast.expr, target: Label, when: bool) -> None:
        """Jumps to `target` if a condition is `when`, and continues otherwise."""

    @abstractmethod
    def called(self, node: ast.Call) -> Value:
        """The value of a call."""

    @abstractmethod
    def joined(self, node: ast.BoolOp) -> Value:
        """The value of `and` and `or`."""

    def value(self, node: ast.expr) -> Value:
        """The value of an expression."""
        known = self.constant(node)
        if known is not None:
            return constant(self.integer(node, known))
        if isinstance(node, ast.Compare) or isinstance(node, ast.UnaryOp) and isinstance(node.op, ast.Not):
            return self.truth(node)
        if isinstance(node, ast.BoolOp):
            return self.joined(node)
        if isinstance(node, (ast.BinOp, ast.UnaryOp)):
            return self.operation(node)
        if isinstance(node, ast.Attribute):
            return self.input(node)
        if isinstance(node, ast.IfExp):
            return self.chosen(node)
        if isinstance(node, ast.Call):
            return self.called(node)
        meaning = self.named(node) if isinstance(node, ast.Name) else None
        if not isinstance(meaning, (Number, Flag)):
            self.reject(node, node, "has no meaning in a rule: use numbers, min, max, abs and the inputs of the car")
        return meaning

    def number(self, node: ast.expr) -> Number:
        """The value of an expression as a number."""
        return self.as_number(self.value(node))

    def as_number(self, value: Value) -> Number:
        """A flag as 1 or 0."""
        if isinstance(value, Number):
            return value
        register = value.register
        return self._one_if(lambda end: self.emitter.emit("jtrue", None, register, target=end))

    def truth(self, node: ast.expr) -> Number:
        """A condition as 1 or 0."""
        with self.placed_at(node):
            return self._one_if(lambda end: self.branch(node, end, True))

    def _one_if(self, jump: Callable[[Label], None]) -> Number:
        """1 if this jumps, and otherwise 0."""
        result, end = Register("a condition"), Label()
        self.emitter.emit("num", result, constants=[1])
        jump(end)
        self.emitter.emit("num", result, constants=[0])
        self.emitter.label(end)
        return Number(result)

    def integer(self, node: ast.AST, value: Any) -> int:
        """A constant as a whole number."""
        value = plain(value)
        if isinstance(value, Fraction) and value.denominator == 1:
            value = int(value)
        if isinstance(value, float) and value.is_integer():
            self.fail(node, f"is {value!r}: write {int(value)}, because a rule calculates with whole numbers")
        if not isinstance(value, int):
            self.fail(node, f"is {value!r}, and a whole number is needed: `//` divides without a fraction")
        return int(value)

    def operation(self, node: Union[ast.BinOp, ast.UnaryOp]) -> Number:
        """A sum, a difference, a product, a quotient or a remainder."""
        if isinstance(node.op, (*SIGNS, ast.Add, ast.Sub)):
            terms = self.sum(node)
            with self.placed_at(node):
                return self.numbers.difference(terms)
        if isinstance(node, ast.UnaryOp) or not isinstance(node.op, (ast.Mult, ast.FloorDiv, ast.Mod)):
            self.reject(node, node.op, "is not possible: a rule calculates with +, -, *, // and %")
        value, by = node.left, self.constant(node.right)
        if isinstance(node.op, ast.Mult) and by is None:
            value, by = node.right, self.constant(node.left)
        if by is None:
            self.fail(
                node, "needs a constant on the right (for `*` on one side): a rule cannot combine two inputs like this"
            )
        return self.scaled(node, self.number(value), self.integer(node, by))

    def scaled(self, node: ast.BinOp, number: Number, by: int) -> Number:
        """A number times, or divided by, a constant; or its remainder."""
        with self.placed_at(node):
            if isinstance(node.op, ast.Mult):
                return self.numbers.product(number, by)
            if by <= 0 and self.emitter.is_live:
                self.fail(node, f"divides by {by}: a rule divides only by constants above 0")
            divide = self.numbers.quotient if isinstance(node.op, ast.FloorDiv) else self.numbers.remainder
            return divide(number, max(by, 1))

    def sum(self, node: ast.expr) -> Sum:
        """An expression as a sum: `a - (b - 2)` is a + 2 - b."""
        if self.constant(node) is None:
            if isinstance(node, ast.BinOp) and isinstance(node.op, (ast.Add, ast.Sub)):
                left, right = self.sum(node.left), self.sum(node.right)
                return left - right if isinstance(node.op, ast.Sub) else left - (ZERO - right)
            if isinstance(node, ast.UnaryOp) and isinstance(node.op, SIGNS):
                inner = self.sum(node.operand)
                return inner if isinstance(node.op, ast.UAdd) else ZERO - inner
        return summand(self.number(node))

    def input(self, node: ast.Attribute) -> Value:
        """The value of an input of the car."""
        if not self.is_car(node.value):
            self.reject(node, node, "has no meaning in a rule")
        with self.placed_at(node):
            if node.attr in INPUTS[self.kind]:
                return Number(self.emitter.new("get", constants=[node.attr]))
            if node.attr == "side" and self.kind == "change":
                return Flag(self.emitter.new("side"))
        inputs = ", ".join(INPUTS[self.kind]) + (" and side" if self.kind == "change" else "")
        self.fail(node, f"is not an input of a {self.kind} rule, which are {inputs}")

    def chosen(self, node: ast.IfExp) -> Value:
        """A conditional expression."""
        result = self.new_variable(ast.unparse(node))
        self.either(
            node.test,
            lambda: self.assign(result, self.value(node.body)),
            lambda: self.assign(result, self.value(node.orelse)),
        )
        return self.value_of(result)

    def either(self, test: ast.expr, yes: Callable[[], None], no: Callable[[], None]) -> None:
        """One of two continuations."""
        other, end = Label(), Label()
        self.branch(test, other, False)
        yes()
        self.emitter.emit("jump", target=end)
        self.emitter.label(other)
        no()
        self.emitter.label(end)

    def assign(self, variable: Variable, value: Value) -> None:
        """Gives a variable a value, and notes if this value needs another form of the variable."""
        if variable.is_flag is None:
            variable.is_flag = isinstance(value, Flag)
        if isinstance(value, Flag) and variable.is_flag:
            self.emitter.emit("copy", variable.plus, value.register)
        else:
            self._assign_number(variable, self.as_number(value))
        self.emitter.assigned.add(variable)

    def _assign_number(self, variable: Variable, value: Number) -> None:
        """Gives a variable a number, and notes if the variable must be able to be negative."""
        if variable.is_flag:
            self.attempt.numbers.add(variable.number)
        if value.minus != 0 and variable.minus is None:
            self.attempt.paired.add(variable.number)
        variable.why = value.why or variable.why
        plus, minus = value.plus, value.minus
        if minus is variable.plus:
            minus = self.emitter.new("copy", minus)
        self._store(variable.plus, plus)
        if variable.minus is not None:
            self._store(variable.minus, minus)

    def _store(self, to: Register, part: int | Register) -> None:
        """Copies a part of a number to a register."""
        if isinstance(part, int):
            self.emitter.emit("num", to, constants=[part])
        elif part is not to:
            self.emitter.emit("copy", to, part)
