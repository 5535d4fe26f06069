"""The decorators, and the rules that they make of functions."""
from __future__ import annotations

import re
from collections.abc import Callable, Mapping
from types import FunctionType
from typing import Any, Union

from .._errors import ParameterError, RuleError
from .._runs.processes import RejectionError, run
from .._runs.requests import Request
from .reading import Decorated, Function, function_of, functions_in
from .translating import Program, Refusal, compiled


class PythonRule(Decorated):
    """A function as a rule: `kind` is `"motion"` or `"change"`, and `parameters` are the defaults of its parameters
    after the car.

    Called with values for parameters, for example `keep_distance(g=2)`, it returns the text of a driver program, which
    the verifier has accepted. The text is a `str` that `Own`, `check` and `explain` take; its attribute `budget` is the
    maximum number of instructions per car and step, and `words` are the random words that it uses. Raises `RuleError`
    if the function is not a rule, and `ParameterError` if it has no such parameter, or needs one more."""

    def __init__(self, kind: str, written: Function) -> None:
        super().__init__(written)
        arguments = written.node.args
        names = [parameter.arg for parameter in [*arguments.args[1:], *arguments.kwonlyargs]]
        if not arguments.args:
            raise RuleError(
                written.file, written.node.lineno, f"`{written.node.name}` needs the car as its first parameter"
            )
        self.kind, self.name, self.file = kind, written.node.name, written.file
        self.parameters: Mapping[str, Any] = {name: written.defaults.get(name) for name in names}

    def __call__(self, *unnamed: object, **parameters: Any) -> Program:
        if unnamed:
            example = f"{self.name}({next(iter(self.parameters), 'p')}=..)"
            raise ParameterError(f"{self.name}: name the parameters, for example `{example}`")
        try:
            self.written.bound([None], parameters)
        except TypeError as error:
            names = ", ".join(self.parameters) or "none"
            raise ParameterError(f"{self.name}: {error}; its parameters are {names}") from None
        try:
            return compiled(self.kind, self.written, parameters, verdict)
        except RecursionError:
            raise RuleError(
                self.file, self.written.node.lineno,
                f"`{self.name}` has too many brackets inside each other: give their values names",
            ) from None

    def __getattr__(self, name: str) -> Any:
        if name in ("budget", "words"):
            raise AttributeError(
                f"`{self.name}` has no `{name}` before it is called, because a program depends on the values of its "
                f"parameters: write `{self.name}().{name}`"
            )
        raise AttributeError(f"a {self.kind} rule has no {name!r}")

    def __repr__(self) -> str:
        return f"<{self.kind} rule {self.name} of {self.file}>"


def motion(function: Callable[..., Any]) -> PythonRule:
    """A rule that returns the car's new speed, in cells per step:

        @trlab.motion
        def keep_distance(car, g=1, p=0.25):
            v = min(car.speed + 1, car.limit, max(car.gap - g, 0))
            if car.draw(p):
                v = max(v - 1, 0)
            return v

        job = Job(limit=5, length=100, density=0.2, rule=Own(keep_distance(g=2)), steps=50)

    The function is translated into a driver program, and is never called. `car` has the inputs of a program: `speed`,
    `limit`, `gap` and `headspeed`; `car.draw(p)` is true with probability p (0 to 1), and `car.safe(v)` is v, but at
    least 0 and at most the gap and the limit. The other parameters are constants of the program. `docs/PROGRAMS.md`
    describes which functions are rules. Raises `RuleError` if the text of the function is not found, and when it is
    used if it is not a rule."""
    return PythonRule("motion", function_of(function))


def change(function: Callable[..., Any]) -> PythonRule:
    """A rule that returns whether the car changes lanes, on a road with two lanes:

        @trlab.change
        def overtake(car, p=0.5):
            return car.side and car.gap <= car.speed and car.sideback >= car.limit and car.draw(p)

    The same as `motion`, but `car` also has `sidegap`, `sideback`, `lane` and `side` (whether the side cell is empty),
    and it has no `safe`."""
    return PythonRule("change", function_of(function))


def rules_in(text: str, file: str = "rule.py") -> dict[str, PythonRule]:
    """The rules of a Python file by name. The file is read and not run. Raises `RuleError`."""
    functions = functions_in(text, file)
    return {function.node.name: PythonRule(kind, function) for function in functions for kind in function.kinds()}


def program_of(kind: str, given: object) -> object:
    """The program of a rule of this kind. Anything else is returned as it is."""
    if isinstance(given, FunctionType):
        raise ParameterError(f"`{given.__name__}` is not a rule yet: write `@trlab.{kind}` above it")
    if not isinstance(given, PythonRule):
        return given
    if given.kind != kind:
        raise ParameterError(f"`{given.name}` is a {given.kind} rule, and a {kind} rule is needed")
    return given()


def need_own_words(motion: object, change: object) -> None:
    """Raises `ParameterError` if both programs use the same random word, and one of them is a function that only counts
    its draws."""
    if isinstance(motion, str) and isinstance(change, str):
        both = sorted(_counted(motion) & _words_of(change) | _counted(change) & _words_of(motion))
        if both:
            raise ParameterError(
                f"both programs use random word {both[0]}: give the draws of the functions their `word=`, the same one "
                "if one draw is to decide for both, and different ones if not"
            )


def _counted(program: str) -> frozenset[int]:
    """The random words of a program that got their numbers by their order."""
    return program.counted if isinstance(program, Program) else frozenset()


def _words_of(program: str) -> frozenset[int]:
    """The random words of a program. (Those of a line `code X` are not known.)"""
    words = re.findall(r"^[^;\n]*\bdraw[ \t]+r[0-7][ \t]*,[ \t]*([0-9]+)", program, re.MULTILINE)
    return frozenset(map(int, words))


def verdict(text: str) -> Union[int, Refusal]:
    """The verifier's verdict on a program."""
    try:
        output = b"".join(run(Request(("check",), text))).decode()
    except RejectionError as rejection:
        output = rejection.message
    words = output.split("\n")[0].split()
    if words[0] == "fault":
        raise AssertionError(f"the translation is not a program: {' '.join(words)}\n{text}")
    numbers = [int(word) for word in words if word.isdigit()]
    return numbers[0] if words[0] == "accepted" else Refusal(numbers[0], numbers[1])
