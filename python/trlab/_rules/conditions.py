"""Conditions: jumps, and their values."""
from __future__ import annotations

import ast
from collections.abc import Iterator

from .emission import Label
from .expressions import Expressions
from .names import Flag, Value

COMPARISONS = (ast.Lt, ast.LtE, ast.Gt, ast.GtE, ast.Eq, ast.NotEq)


class Conditions(Expressions):
    """Jumps that depend on conditions."""

    def branch(self, node: ast.expr, target: Label, when: bool) -> None:
        """Jumps to `target` if a condition is `when`, and continues otherwise."""
        value = self.constant(node)
        if value is not None:
            if bool(value) == when:
                self.emitter.emit("jump", target=target)
        elif isinstance(node, ast.UnaryOp) and isinstance(node.op, ast.Not):
            self.branch(node.operand, target, not when)
        elif isinstance(node, ast.BoolOp):
            self._branch_at_parts(node, target, when)
        elif isinstance(node, ast.IfExp):
            yes, no = node.body, node.orelse
            self.either(node.test, lambda: self.branch(yes, target, when), lambda: self.branch(no, target, when))
        elif isinstance(node, ast.Compare):
            self._branch_at_comparison(node, target, when)
        else:
            self._branch_at_value(self.value(node), node, target, when)

    def _branch_at_parts(self, node: ast.BoolOp, target: Label, when: bool) -> None:
        """The same for `and` and `or`."""
        # The first part of an `or` that is true, or of an `and` that is false, decides at once.
        if isinstance(node.op, ast.Or) == when:
            for part in node.values:
                self.branch(part, target, when)
            return
        skip = Label()
        for part in node.values[:-1]:
            self.branch(part, skip, not when)
        self.branch(node.values[-1], target, when)
        self.emitter.label(skip)

    def _branch_at_comparison(self, node: ast.Compare, target: Label, when: bool) -> None:
        """A comparison, also of several numbers: each is calculated once."""
        for operator in node.ops:
            if not isinstance(operator, COMPARISONS):
                self.reject(node, operator, "is not possible: a rule compares with <, <=, >, >=, == and !=")
        sums = [self.sum(operand) for operand in [node.left, *node.comparators]]
        skip = Label()
        with self.placed_at(node):
            *first_comparisons, last_comparison = zip(node.ops, sums, sums[1:])
            for operator, left, right in first_comparisons:
                # One comparison that is false decides the whole.
                self.numbers.jump_at_comparison(operator, right - left, skip if when else target, False)
            operator, left, right = last_comparison
            self.numbers.jump_at_comparison(operator, right - left, target, when)
            self.emitter.label(skip)

    def _branch_at_value(self, value: Value, node: ast.expr, target: Label, when: bool) -> None:
        """The same for a value: a flag, or a number, which is true unless it is 0."""
        with self.placed_at(node):
            if isinstance(value, Flag):
                self.emitter.emit("jtrue" if when else "jfalse", None, value.register, target=target)
            else:
                self.numbers.jump_at_order(1, self.numbers.size(value), target, when, may_be_equal=True)

    def joined(self, node: ast.BoolOp) -> Value:
        """The value of `and` and `or`: that of their last part, unless an earlier part decides."""
        result = self.new_variable(ast.unparse(node))
        parts = list(_all_of(node)) if isinstance(node.op, ast.And) else []
        # The verifier must learn from the result that the side cell is empty, which it does not from 1 or 0.
        if any(self._is_flag(part) for part in parts) and self._is_truth(parts[-1]):
            return self._flag_of_all(parts)
        # If every part is true or false, the value is 1 or 0, and no part needs a register of its own.
        if self._is_truth(node):
            return self.truth(node)
        end = Label()
        for part in node.values:
            self.assign(result, self.value(part))
            if part is not node.values[-1]:
                self._branch_at_value(self.value_of(result), part, end, isinstance(node.op, ast.Or))
        self.emitter.label(end)
        return self.value_of(result)

    def _flag_of_all(self, parts: list[ast.expr]) -> Flag:
        """The flags of an `and`, all together. If another part is false, the result is combined with its own opposite.
        So the verifier still knows that the side cell is empty if the result is true."""
        flags = [self.value(part) for part in parts if self._is_flag(part)]
        registers = [part.register for part in flags if isinstance(part, Flag)]
        result, false, end = self.emitter.new("copy", registers[0]), Label(), Label()
        for other in registers[1:]:
            self.emitter.emit("and", result, result, other)
        for part in parts:
            if not self._is_flag(part):
                self.branch(part, false, False)
        self.emitter.emit("jump", target=end)
        self.emitter.label(false)
        self.emitter.emit("and", result, result, self.emitter.new("not", result))
        self.emitter.label(end)
        return Flag(result)

    def _is_flag(self, node: ast.expr) -> bool:
        """Whether this is the side cell, or a variable with a flag. (A draw is not, so that draws keep their order.)"""
        if isinstance(node, ast.Attribute):
            return node.attr == "side"
        return isinstance(node, ast.Name) and isinstance(self.named(node), Flag)

    def _is_truth(self, node: ast.expr) -> bool:
        """Whether the form of an expression shows that its value is true or false."""
        if isinstance(node, ast.BoolOp):
            return all(self._is_truth(part) for part in node.values)
        is_not = isinstance(node, ast.UnaryOp) and isinstance(node.op, ast.Not)
        is_draw = isinstance(node, ast.Call) and isinstance(node.func, ast.Attribute) and node.func.attr == "draw"
        return is_not or is_draw or isinstance(node, ast.Compare) or self._is_flag(node)


def _all_of(node: ast.expr) -> Iterator[ast.expr]:
    """The conditions that must all be true."""
    if isinstance(node, ast.BoolOp) and isinstance(node.op, ast.And):
        for value in node.values:
            yield from _all_of(value)
    else:
        yield node
