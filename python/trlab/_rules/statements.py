"""Statements: assignments, `if`, loops that are written out, and `return`."""
from __future__ import annotations

import ast
from collections.abc import Sequence
from typing import Optional

from .calls import Calls
from .emission import Label

MAX_TURNS = 64
"""The most turns of a loop: each of them takes instructions of a program, which has at most 128."""


class Translation(Calls):
    """One translation of a function."""

    def block(self, body: Sequence[ast.stmt]) -> None:
        """Translates statements, one after the other."""
        for statement in body:
            with self.placed_at(statement):
                self._statement(statement)

    def _statement(self, node: ast.stmt) -> None:
        """Translates a statement."""
        if isinstance(node, ast.Pass) or isinstance(node, ast.Expr) and isinstance(node.value, ast.Constant):
            return
        if isinstance(node, ast.Assign) and len(node.targets) == 1:
            self._assign(node.targets[0], node.value)
        elif isinstance(node, ast.AnnAssign) and node.value is not None:
            self._assign(node.target, node.value)
        elif isinstance(node, ast.AugAssign) and isinstance(node.target, ast.Name):
            name = ast.copy_location(ast.Name(node.target.id, ast.Load()), node.target)
            self._assign(node.target, ast.copy_location(ast.BinOp(name, node.op, node.value), node))
        elif isinstance(node, ast.If):
            yes, no = node.body, node.orelse
            self.either(node.test, lambda: self.block(yes), lambda: self.block(no))
        elif isinstance(node, ast.For):
            self._loop(node)
        elif isinstance(node, ast.Return):
            self._return(node)
        else:
            self.reject(
                node, node, "is not possible: a rule has assignments to a name, `if`, `for i in range(n)` and `return`"
            )

    def _assign(self, target: ast.expr, node: ast.expr) -> None:
        """Translates an assignment to a name."""
        if not isinstance(target, ast.Name):
            self.fail(target, "cannot be assigned: assign one name per line")
        value = self.value(node)
        with self.placed_at(node):
            self.assign(self.variable(target.id), value)

    def _loop(self, node: ast.For) -> None:
        """Translates a loop: its body once for each turn, with the counter as a constant."""
        frame, target = self.frames[-1], node.target
        turns = self._turns(node.iter)
        if turns is None or not isinstance(target, ast.Name) or node.orelse:
            self.fail(node, "is not possible: write `for i in range(n)` with constants, and without `else`")
        if target.id in frame.assigned or target.id in frame.constants:
            self.fail(node, f"uses `{target.id}`, which has another value outside: take another name")
        if turns[MAX_TURNS:]:
            self.fail(node, f"has too many turns: at most {MAX_TURNS} are possible")
        for turn in turns:
            frame.constants[target.id] = turn
            self.block(node.body)
        frame.constants.pop(target.id, None)

    def _turns(self, node: ast.expr) -> Optional[range]:
        """The range of a loop, if it is one of constants."""
        if not isinstance(node, ast.Call) or not isinstance(node.func, ast.Name):
            return None
        if node.func.id != "range" or not self.is_own("range"):
            return None
        try:
            return range(*(self.constant(argument) for argument in node.args)) if not node.keywords else None
        except (TypeError, ValueError):
            return None

    def _return(self, node: ast.Return) -> None:
        """Translates `return`: the end of the call, or the answer of the rule."""
        frame = self.frames[-1]
        if node.value is None:
            self.fail(node, "needs a value")
        if frame.end is not None and frame.result is not None:
            self.assign(frame.result, self.value(node.value))
            self.emitter.emit("jump", target=frame.end)
        elif self.kind == "change":
            stay = Label()
            self.branch(node.value, stay, False)
            self.emitter.emit("cross")
            self.emitter.label(stay)
            self.emitter.emit("stay")
        else:
            self._return_speed(node, node.value)

    def _return_speed(self, node: ast.Return, speed: ast.expr) -> None:
        """Translates `return` in a motion rule. Raises the error of the speed if it may be negative."""
        value = self.number(speed)
        if value.minus != 0 and self.emitter.is_live:
            why = value.why or self.place(speed)
            where = "" if why.line == node.lineno else f", and so may the speed of line {node.lineno}"
            why.fail(f"`{why.text}` may be below 0{where}: write `max({why.text}, 0)`, or `return car.safe(..)`")
        self.emitter.emit("go", None, value.plus)
