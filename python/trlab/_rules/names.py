"""The meanings of a function's names while it is translated: the car, constants, other functions and variables."""
from __future__ import annotations

import ast
import builtins
from collections.abc import Iterator
from contextlib import contextmanager
from dataclasses import dataclass, field
from functools import lru_cache
from itertools import count
from typing import Any, NamedTuple, NoReturn, Optional, Union

from .emission import Emitter, Label, Place, Register
from .outside import instead_of
from .pairs import Arithmetic, Number
from .reading import UNKNOWN, Function, plain

_OPERATORS = (
    ast.Constant, ast.Name, ast.Load,
    ast.IfExp, ast.BoolOp, ast.boolop,
    ast.Compare, ast.Lt, ast.LtE, ast.Gt, ast.GtE, ast.Eq, ast.NotEq,
    ast.UnaryOp, ast.UAdd, ast.USub, ast.Not,
    ast.BinOp, ast.Add, ast.Sub, ast.Mult, ast.Div, ast.FloorDiv, ast.Mod,
)
"""The syntax of expressions that Python itself calculates if all names in them are constants."""

MAX_PARTS = 10000
"""The most statements and expressions of a function, with all turns and calls written out: a program has 128
instructions."""


class Car:
    """The first parameter of a rule."""


class Flag(NamedTuple):
    """A register with true or false, which is 1 or 0 in calculations."""

    register: Register


Value = Union[Number, Flag]


@dataclass
class Attempt:
    """Facts from earlier translations of the function: the differences that may be negative, by their numbers, the
    variables that may be, and those that are not always a flag. `shares` is that of `Emitter`."""

    shares: bool
    below: set[int] = field(default_factory=set)
    paired: set[int] = field(default_factory=set)
    numbers: set[int] = field(default_factory=set)

    def forms(self) -> int:
        """How many variables need another form than the first one."""
        return len(self.paired) + len(self.numbers)


class Variable:
    """A name that is assigned: a pair of registers, or one with a flag. The first value decides if `is_flag` is
    None."""

    def __init__(self, name: str, number: int, attempt: Attempt) -> None:
        self.number = number
        self.is_flag = False if number in attempt.numbers else None
        self.why: Optional[Place] = None
        self.plus = Register(name)
        self.minus = Register(name) if number in attempt.paired else None


class Frame:
    """A call of a function: its names, and the place at which `return` continues (None: the end of the step)."""

    def __init__(self, function: Function, end: Optional[Label], result: Optional[Variable]) -> None:
        self.function, self.end, self.result = function, end, result
        self.constants: dict[str, Any] = {}
        self.variables: dict[str, Variable] = {}
        self.assigned, self.counters = _stored_in(function.node)


class StoredNames(NamedTuple):
    """The names that a function assigns, and the counters of its loops."""

    assigned: set[str]
    counters: set[str]


@lru_cache(maxsize=256)
def _stored_in(node: ast.FunctionDef) -> StoredNames:
    """The names that a function assigns."""
    counters = [part.target for part in ast.walk(node) if isinstance(part, ast.For)]
    stored = [part for part in ast.walk(node) if isinstance(part, ast.Name) and isinstance(part.ctx, ast.Store)]
    assigned = {name.id for name in stored if name not in counters}
    return StoredNames(assigned, {counter.id for counter in counters if isinstance(counter, ast.Name)})


class Names:
    """The frames of the calls that are being translated, and the values of names in them."""

    def __init__(self, kind: str, attempt: Attempt) -> None:
        self.kind, self.attempt = kind, attempt
        self.emitter = Emitter(attempt.shares)
        self.numbers = Arithmetic(self.emitter, attempt.below)
        self.frames: list[Frame] = []
        self._variables, self._parts = count(), 0

    def place(self, node: ast.AST) -> Place:
        """The place of a node in the file."""
        written = self.frames[-1].function
        return Place(written.file, getattr(node, "lineno", written.node.lineno), _first_line_of(node))

    def fail(self, node: ast.AST, message: str) -> NoReturn:
        """Raises the error of a node; the message begins with its text."""
        place = self.place(node)
        place.fail(f"`{place.text}` {message}")

    def reject(self, node: ast.AST, part: ast.AST, otherwise: str) -> NoReturn:
        """Raises the error of a node that has a part outside of the subset."""
        self.fail(node, instead_of(part, otherwise))

    @contextmanager
    def placed_at(self, node: ast.AST) -> Iterator[None]:
        """Instructions that are emitted in this block get the place of this node."""
        self._parts += 1
        if self._parts > MAX_PARTS:
            self.fail(
                node, "is one part too many, because the text of the function is written out with all turns and calls: "
                "write fewer of them"
            )
        before, self.emitter.place = self.emitter.place, self.place(node)
        yield
        self.emitter.place = before

    def new_variable(self, name: str) -> Variable:
        """A new variable, whose number no other one has."""
        return Variable(name, next(self._variables), self.attempt)

    def variable(self, name: str) -> Variable:
        """The variable of this name in the current call."""
        variables = self.frames[-1].variables
        if name not in variables:
            variables[name] = self.new_variable(name)
        return variables[name]

    def value_of(self, variable: Variable) -> Value:
        """The value of a variable: a flag or a number."""
        if variable.is_flag:
            return Flag(variable.plus)
        return Number(variable.plus, variable.minus or 0, variable.why)

    def named(self, node: ast.Name) -> Any:
        """The meaning of a name: the car, a constant, a function, or the value of a variable."""
        frame, name = self.frames[-1], node.id
        if name in frame.assigned:
            variable = self.variable(name)
            if self.emitter.is_live and variable not in self.emitter.assigned:
                self.fail(node, "may have no value here: assign one on every path to this line")
            return self.value_of(variable)
        if name in frame.constants:
            return frame.constants[name]
        if name in frame.counters:
            self.fail(node, "is known only inside its loop: assign it to another name there")
        try:
            return frame.function.outside(name)
        except KeyError:
            self.fail(node, "is unknown here: make it a parameter, or give it a constant above the function")

    def is_own(self, name: str) -> bool:
        """Whether a name has the meaning that Python itself gives it."""
        frame = self.frames[-1]
        if name in frame.assigned or name in frame.constants or name in frame.counters or not hasattr(builtins, name):
            return False
        try:
            return frame.function.outside(name) is getattr(builtins, name)
        except KeyError:
            return True

    def is_car(self, node: ast.expr) -> bool:
        """Whether an expression is the car."""
        return isinstance(node, ast.Name) and isinstance(self.named(node), Car)

    def constant(self, node: ast.expr) -> Any:
        """The value of an expression of constants, as Python calculates it; None if it depends on the car."""
        nodes = _names_in(node)
        if nodes is None:
            return None
        values = {name.id: plain(self.named(name)) for name in nodes}
        if any(isinstance(value, (Car, Function, Number, Flag)) for value in values.values()):
            return None
        if any(value is UNKNOWN for value in values.values()):
            self.fail(node, "is not known before the run: give it a number in the file, or make it a parameter")
        try:
            value = plain(_calculated(node, values))
            bool(value)  # an array has no truth value
        except (ArithmeticError, TypeError, ValueError) as error:
            if self.emitter.is_live:
                self.fail(node, f"cannot be calculated: {error}")
            return 0
        return value


@lru_cache(maxsize=4096)
def _first_line_of(node: ast.AST) -> str:
    """The first line of the text of a node."""
    return ast.unparse(node).split("\n")[0]


@lru_cache(maxsize=4096)
def _names_in(node: ast.AST) -> Optional[list[ast.Name]]:
    """The names in an expression; None if it has more than operators, names and constants."""
    if not isinstance(node, _OPERATORS):
        return None
    names = [node] if isinstance(node, ast.Name) else []
    for child in ast.iter_child_nodes(node):
        names_in_child = _names_in(child)
        if names_in_child is None:
            return None
        names += names_in_child
    return names


def _calculated(node: ast.expr, names: dict[str, Any]) -> Any:
    """The value of an expression with these names. A text has no calculations, because it could become very long."""
    if isinstance(node, (ast.Constant, ast.Name)):
        return node.value if isinstance(node, ast.Constant) else names[node.id]
    operations = [part for part in ast.walk(node) if isinstance(part, ast.BinOp)]
    if any(_has_text(operation, names) for operation in operations):
        raise TypeError("a text is not a number")
    return eval(compile(ast.Expression(node), "constant", "eval"), {"__builtins__": {}}, names)


def _has_text(operation: ast.BinOp, names: dict[str, Any]) -> bool:
    """Whether a text, or a name of a text, is in an operation."""
    for part in ast.walk(operation):
        value = names[part.id] if isinstance(part, ast.Name) else getattr(part, "value", None)
        if isinstance(value, (str, bytes)):
            return True
    return False
