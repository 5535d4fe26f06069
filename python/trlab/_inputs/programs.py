"""Driver programs: verify one, and explain any input."""
from __future__ import annotations

from typing import NamedTuple, Union

from .._errors import ParameterError
from .._rules.functions import PythonRule
from .._runs.calls import ask, explained
from .jobs import Job
from .numbers import shown
from .sweeps import Sweep


class AcceptedProgram(NamedTuple):
    """An accepted driver program: `budget` is its maximum number of instructions per car and step, and `program` its
    canonical form."""

    budget: int
    program: str


def check(program: Union[str, PythonRule]) -> AcceptedProgram:
    """Verify a driver program: text that begins with `motion` or `change`, one line `code X`, or a Python function that
    is a rule. Raises `RejectedInputError`, and `RuleError` for a function."""
    text = _program_or_given(program)
    if not isinstance(text, str):
        raise ParameterError(f"a driver program is a text, not {shown(text)}")
    verdict, _, canonical = ask(["check"], text.lstrip("\n")).partition("\n")
    return AcceptedProgram(int(verdict.split(" ")[-1]), canonical)


def explain(input: Union[str, PythonRule, Job, Sweep]) -> str:
    """The output of `trlab explain`: the error in an input and how to fix it, or a description of a valid input.
    `input` is a job, a sweep, the text of a job, a sweep or a driver program, or a Python function that is a rule.
    Raises `ParameterError` for anything else, and `RuleError` for a function that is not a rule."""
    given = _program_or_given(input)
    if not isinstance(given, (str, Job, Sweep)):
        raise ParameterError(f"an input is a Job, a Sweep or a text, not {shown(given)}")
    text = given if isinstance(given, str) else given.text()
    return explained(text).stdout.rstrip("\n")


def _program_or_given(given: object) -> object:
    """The program of a Python function that is a rule. Anything else is returned as it is."""
    return given() if isinstance(given, PythonRule) else given
