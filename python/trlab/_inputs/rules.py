"""Rules for the cars, and the lines that state them in an input file."""
from __future__ import annotations

from collections.abc import Iterator, Mapping
from dataclasses import dataclass
from enum import Enum
from typing import Union

from .._errors import ParameterError
from .._rules.functions import PythonRule, need_own_words, program_of
from .numbers import Probability, checked_int, parts, probability, shown, store


@dataclass(frozen=True)
class Nasch:
    """The Nagel-Schreckenberg model: `brake` is the probability to brake by one cell per step, 0 to 1.

    Source: K. Nagel and M. Schreckenberg, J. Physique I 2, 2221, 1992."""

    brake: Probability

    def __post_init__(self) -> None:
        store(self, brake=probability("brake", self.brake))

    def lines(self) -> list[str]:
        return [f"rule nasch {parts(self.brake)}"]


@dataclass(frozen=True)
class SlowToStart:
    """The VDR (slow-to-start) model: `brake` is the braking probability of moving cars, `stopped` that of cars which
    were stopped before the step, 0 to 1.

    Source: R. Barlovic, L. Santen, A. Schadschneider and M. Schreckenberg, Eur. Phys. J. B 5, 793, 1998."""

    brake: Probability
    stopped: Probability

    def __post_init__(self) -> None:
        store(self, brake=probability("brake", self.brake), stopped=probability("stopped", self.stopped))

    def lines(self) -> list[str]:
        return [f"rule vdr {parts(self.brake)} {parts(self.stopped)}"]


@dataclass(frozen=True)
class Rickert:
    """A model for two lanes: `brake` is the braking probability, `change` the probability to change lanes if the rule
    allows it, 0 to 1.

    Source: M. Rickert, K. Nagel, M. Schreckenberg and A. Latour, Physica A 231, 534, 1996; docs/MODELS.md has the
    differences."""

    brake: Probability
    change: Probability

    def __post_init__(self) -> None:
        store(self, brake=probability("brake", self.brake), change=probability("change", self.change))

    def lines(self) -> list[str]:
        return [f"rule rickert {parts(self.brake)} {parts(self.change)}"]


@dataclass(frozen=True)
class Own:
    """Your own driver programs: Python functions (see `trlab.motion` and `trlab.change`), the text that `trlab check`
    reads, or one line `code X`. Functions are stored as the text of their programs. Without `change` no car changes
    lanes. Raises `RuleError` if a function is not a rule, and `ParameterError` if both programs use the same random
    word, although a function does not give it by `word=`."""

    motion: Union[str, PythonRule]
    change: Union[None, str, PythonRule] = None

    def __post_init__(self) -> None:
        motion, change = program_of("motion", self.motion), program_of("change", self.change)
        need_own_words(motion, change)
        store(self, motion=_checked_program("motion", motion))
        store(self, change=None if change is None else _checked_program("change", change))

    def lines(self) -> list[str]:
        changes = [] if self.change is None else _lines_of_program("change", str(self.change))
        return ["rule own", *_lines_of_program("motion", str(self.motion)), *changes]


Rule = Union[Nasch, SlowToStart, Rickert, Own]
"""The rule of a job or a sweep."""


class Schedule(Mapping[int, Rule]):
    """Rules by the step at which they take over, in the order of steps. It compares like a dict, and has a hash because
    it cannot be changed."""

    def __init__(self, rules: Mapping[int, Rule], steps: int) -> None:
        """Raises `ParameterError` if a step is not a whole number from 0 to less than `steps`."""
        if not isinstance(rules, Mapping):
            raise ParameterError(f"`at` must be a dict of rules by their first step, not {shown(rules)}")
        rule_at = {checked_int("a step of `at`", step, 0): need_rule(rule) for step, rule in rules.items()}
        for step in rule_at:
            if step >= steps:
                raise ParameterError(f"a step of `at` must be below `steps`, which is {steps}, not {shown(step)}")
        if len(rule_at) < len(rules):
            raise ParameterError("two rules of `at` have the same step")
        self._rules: dict[int, Rule] = {step: rule_at[step] for step in sorted(rule_at)}

    def __getitem__(self, step: int) -> Rule:
        return self._rules[step]

    def __iter__(self) -> Iterator[int]:
        return iter(self._rules)

    def __len__(self) -> int:
        return len(self._rules)

    def __hash__(self) -> int:
        return hash(tuple(self._rules.items()))

    def __repr__(self) -> str:
        return repr(self._rules)


def need_rule(rule: object) -> Rule:
    """The rule; raises `ParameterError` if this is not one."""
    if isinstance(rule, PythonRule):
        raise ParameterError(
            f"a rule for the cars is `Own({rule.name})`, or `Own({rule.name}(..))` with parameters, not `{rule.name}`"
        )
    if not isinstance(rule, (Nasch, SlowToStart, Rickert, Own)):
        raise ParameterError(f"a rule is Nasch, SlowToStart, Rickert or Own, not {shown(rule)}")
    return rule


def _checked_program(kind: str, program: object) -> str:
    """The program as Python's own string; raises `ParameterError` if this cannot be the text of a program of this kind.
    Only the verifier decides whether the program is safe: see `check`."""
    if not isinstance(program, str) or isinstance(program, Enum):
        raise ParameterError(f"a {kind} program is a text, not {shown(program)}")
    lines = program.strip("\n").split("\n")
    other = "change" if kind == "motion" else "motion"
    try:
        program.encode()
    except UnicodeEncodeError:
        raise ParameterError(f"the {kind} program has a character that UTF-8 does not have") from None
    if not program.strip():
        raise ParameterError(f"the {kind} program is empty")
    if lines[0] == other:
        raise ParameterError(f"this is a {other} program, and a {kind} program is needed")
    if lines[0].startswith("code ") and len(lines) > 1:
        raise ParameterError("a program that is given as `code X` is one line")
    if "end" in lines:
        raise ParameterError(f"the {kind} program has a line `end`: leave it out")
    return str.__str__(program)


def _lines_of_program(kind: str, program: str) -> list[str]:
    """The lines of a program in a file. Its first line may be left out, and `end` is not one of them. Empty lines at
    the start do not count, so that a program may be written between triple quotes."""
    lines = program.lstrip("\n").removesuffix("\n").split("\n")
    if lines[0].startswith("code "):
        return lines[:1]
    first = [] if lines[0] == kind else [kind]
    return [*first, *lines, "end"]
