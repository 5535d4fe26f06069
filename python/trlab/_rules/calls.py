"""Calls: random draws, safe speeds, min, max and abs, and other functions, whose text takes the place of the call."""
from __future__ import annotations

import ast
from abc import abstractmethod
from collections.abc import Mapping, Sequence
from typing import Any

from .._errors import ParameterError
from .._inputs.numbers import parts, probability
from .conditions import Conditions
from .emission import Label, Register
from .names import Attempt, Car, Flag, Frame, Value
from .pairs import Number, constant
from .reading import UNKNOWN, Function

WORDS = 16
"""The random words of a car in a step."""

MAX_DEPTH = 16
"""How many calls may be inside each other."""

METHODS = {"motion": "car.draw, car.safe", "change": "car.draw"}
"""The methods of the car in a rule of each kind, for messages."""


class Calls(Conditions):
    """Calls. `words` has the random words that they use, and for each of them whether the function gives its number by
    `word=`."""

    def __init__(self, kind: str, attempt: Attempt) -> None:
        super().__init__(kind, attempt)
        self.words: dict[int, bool] = {}
        self._next_word = 0 if kind == "motion" else WORDS - 1

    @abstractmethod
    def block(self, body: Sequence[ast.stmt]) -> None:
        """Statements, one after the other."""

    def called(self, node: ast.Call) -> Value:
        """The value of a call."""
        function = node.func
        if isinstance(function, ast.Attribute) and self.is_car(function.value):
            return self._method(function.attr, node)
        if isinstance(function, ast.Name) and self.is_own(function.id):
            if function.id in ("min", "max", "abs"):
                return self._extreme(function.id, node)
        elif isinstance(function, ast.Name):
            meaning = self.named(function)
            if isinstance(meaning, Function):
                return self._inlined(meaning, node)
            if meaning is UNKNOWN:
                self.fail(
                    node,
                    "is not known, because the file is read and not run: write the function in this file, without "
                    "decorators"
                )
        self.fail(
            node, f"is not possible: a rule calls min, max, abs, {METHODS[self.kind]}, and your own functions by their "
            "names, if these have no decorators"
        )

    def _method(self, name: str, node: ast.Call) -> Value:
        """The value of `car.draw(..)` or `car.safe(..)`."""
        if name == "draw":
            return self._drawn(node)
        if name == "safe" and self.kind == "motion":
            return self._safe(node)
        self.fail(
            node, f"is not possible: a {self.kind} rule calls {METHODS[self.kind]}, and its inputs have no brackets"
        )

    def _extreme(self, name: str, node: ast.Call) -> Number:
        """The value of `min`, `max` or `abs`."""
        takes_one = name == "abs"
        has_stars = any(isinstance(argument, ast.Starred) for argument in node.args)
        if node.keywords or has_stars or (len(node.args) < 2) != takes_one:
            self.fail(node, f"needs {'one number' if takes_one else 'two or more numbers'}")
        values = [self.number(argument) for argument in node.args]
        with self.placed_at(node):
            return Number(self.numbers.size(values[0])) if takes_one else self.numbers.extreme(name, values)

    def _safe(self, node: ast.Call) -> Number:
        """The number, but at least 0 and at most the gap and the limit."""
        if len(node.args) != 1 or node.keywords:
            self.fail(node, "needs one number")
        value = self.number(node.args[0])
        with self.placed_at(node):
            bounds = [Number(self.emitter.new("get", constants=[name])) for name in ("gap", "limit")]
            return self.numbers.extreme("min", [Number(value.plus), *bounds])

    def _drawn(self, node: ast.Call) -> Flag:
        """The value of `car.draw(..)`."""
        names = [keyword.arg for keyword in node.keywords]
        if len(node.args) != 1 or names not in ([], ["word"]):
            self.fail(
                node, "needs a probability: write `car.draw(p)`, or `car.draw(p, word=k)` with a random word k, 0 to 15"
            )
        word = self._word(node)
        is_given = names != []
        if self.words.setdefault(word, is_given) != is_given:
            self.fail(node, f"uses random word {word}, which another draw uses too: give all draws their `word=`")
        with self.placed_at(node):
            result, next_word = Register(self.emitter.place.text), self._next_word
            self._draw(node.args[0], word, result)
        if next_word != self._next_word:
            self.fail(
                node,
                "has another draw in its probability, which Python makes first: give that one a name in a line before"
            )
        return Flag(result)

    def _word(self, node: ast.Call) -> int:
        """The random word that a draw gives, or else the next one: 0, 1, 2 .. in a motion rule, and 15, 14 .. in a
        change rule, in the order in which Python evaluates the text with all branches, loops and calls written out."""
        if node.keywords:
            given = self.constant(node.keywords[0].value)
            if not isinstance(given, int) or isinstance(given, bool) or not 0 <= given < WORDS:
                self.fail(node, "needs a constant word, 0 to 15")
            return given
        word = self._next_word
        self._next_word += 1 if self.kind == "motion" else -1
        if not 0 <= word < WORDS:
            self.fail(
                node,
                f"is one draw too many: a car has {WORDS} random words in a step, and every branch and turn counts"
            )
        return word

    def _draw(self, expression: ast.expr, word: int, result: Register) -> None:
        """A draw with a probability, or a choice of probabilities: `car.draw(p0 if car.speed == 0 else p)`."""
        value = self.constant(expression)
        if value is None and isinstance(expression, ast.IfExp):
            yes, no = expression.body, expression.orelse
            return self.either(
                expression.test, lambda: self._draw(yes, word, result), lambda: self._draw(no, word, result)
            )
        if value is None:
            self.fail(
                expression, "is not a probability: it must be a constant, a parameter, or a choice like `p0 if "
                "car.speed == 0 else p`"
            )
        try:
            return self.emitter.emit("draw", result, constants=[word, parts(probability("the probability", value))])
        except ParameterError as error:
            self.fail(expression, f"is not a probability: {error}")

    def _inlined(self, function: Function, node: ast.Call) -> Value:
        """The text of a function in the place of its call."""
        if len(self.frames) > MAX_DEPTH:
            self.fail(node, "calls itself, or calls are nested too deeply: write a loop, `for i in range(n)`")
        values = [self._argument(argument) for argument in node.args]
        if not all(keyword.arg for keyword in node.keywords):
            self.fail(node, "is not possible: a rule has no `**` in calls")
        named = {str(keyword.arg): self._argument(keyword.value) for keyword in node.keywords}
        try:
            bound = function.bound(values, named)
        except TypeError as error:
            self.fail(node, f"does not fit: {error}")
        end, result = Label(), self.new_variable(ast.unparse(node))
        self.frames.append(Frame(function, end, result))
        self.enter(bound)
        self.block(function.node.body)
        if self.emitter.is_live:
            self.fail(function.node, "can end without `return`: return a value on every path")
        self.emitter.label(end)
        self.frames.pop()
        return self.value_of(result)

    def _argument(self, node: ast.expr) -> Any:
        """The meaning of an argument: the car, a function, a constant or a value."""
        if isinstance(node, ast.Starred):
            self.fail(node, "is not possible: a rule has no `*` in calls")
        if isinstance(node, ast.Name) and isinstance(self.named(node), (Car, Function)):
            return self.named(node)
        value = self.constant(node)
        return self.value(node) if value is None else value

    def enter(self, bound: Mapping[str, Any]) -> None:
        """Gives the parameters of the current call their values. Those that are never assigned stay as they are."""
        frame = self.frames[-1]
        for name, value in bound.items():
            if name not in frame.assigned:
                frame.constants[name] = value
            elif isinstance(value, Car):
                self.fail(frame.function.node, f"assigns `{name}`, which is the car: take another name")
            else:
                if not isinstance(value, (Number, Flag)):
                    value = constant(self.integer(frame.function.node, value))
                self.assign(self.variable(name), value)
