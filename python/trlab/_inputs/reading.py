"""Input files as they are read: the parameters that a file has, for inputs and for the controls of the page."""
from __future__ import annotations

import json
import os
from fractions import Fraction
from pathlib import Path
from typing import Any, Optional, Protocol, TypeVar, Union

from .._errors import ParameterError, RejectedInputError
from .._runs.calls import explained
from .numbers import ALWAYS, shown
from .rules import Nasch, Own, Rickert, Rule, SlowToStart

_MODELS: dict[str, Any] = {"nasch": Nasch, "vdr": SlowToStart, "rickert": Rickert}


class _Input(Protocol):
    """A job or a sweep."""

    def text(self) -> str: ...


Input = TypeVar("Input", bound=_Input)


def content_of(path: Union[str, os.PathLike[str]], kind: str) -> str:
    """The text of an input file, with its line ends as they are."""
    if isinstance(path, str) and "\n" in path:
        raise ParameterError(f"`read` takes the path of a file: for a text use {kind}.from_text(text)")
    try:
        return Path(path).read_bytes().decode()
    except UnicodeDecodeError:
        raise ParameterError(f"{path} is not in UTF-8") from None


def need_accepted(command: str, text: str) -> None:
    """Raises `RejectedInputError` if the program rejects this input for a command, `run` or `sweep`."""
    if not isinstance(text, str):
        raise ParameterError(f"the content of an input file is a text, not {shown(text)}")
    report = explained(text, "--json", command)
    if report.returncode != 0:
        raise RejectedInputError(explained(text, command).stdout.rstrip("\n"), json.loads(report.stdout))


def need_same(input: Input, text: str) -> Input:
    """The input that was read; raises `ParameterError` if its `.text()` is different."""
    if not text.endswith("\n"):
        raise ParameterError("the last line of the file does not end with a line feed: add one")
    if input.text() != text:
        raise ParameterError(
            "trlab would write this file differently, so it cannot be read: make the input in Python instead"
        )
    return input


def job_of(text: str) -> dict[str, Any]:
    """The parameters of `Job` in a text that the program accepts. Raises `ParameterError` if it is not a job."""
    lines = Lines(text)
    lines.take("road")
    parameters: dict[str, Any] = {"key": lines.key(), "limit": lines.number("limit")}
    parameters["start"] = [lines.take("lane")]
    while lines.word() == "lane":
        parameters["start"].append(lines.take("lane"))
    parameters.update(rule=lines.rule(), steps=lines.number("steps"), at={})
    while lines.is_left():
        step, _, rule = lines.take("at").partition(" ")
        parameters["at"][_number(step)] = lines.rule(rule)
    return parameters


def sweep_of(text: str) -> dict[str, Any]:
    """The parameters of `Sweep` in a text that the program accepts. Raises `ParameterError` if it is not a sweep."""
    lines = Lines(text)
    lines.take("sweep")
    parameters: dict[str, Any] = {
        "key": lines.key(), **{name: lines.number(name) for name in ("limit", "length", "lanes")}
    }
    parameters.update(rule=lines.rule(), warm=lines.number("warm"), measure=lines.number("measure"), cars=[])
    while lines.is_left():
        parameters["cars"].append(lines.number("cars"))
    return parameters


class Lines:
    """The lines of an input file, which are taken one after the other."""

    def __init__(self, text: str) -> None:
        self._lines = text.removesuffix("\n").split("\n")
        self._next = 0

    def is_left(self) -> bool:
        """Whether there is a next line."""
        return self._next < len(self._lines)

    def line(self) -> str:
        """The next line; raises `ParameterError` if there is none."""
        if not self.is_left():
            raise ParameterError("the file ends too early")
        self._next += 1
        return self._lines[self._next - 1]

    def word(self) -> str:
        """The first word of the next line, or no word."""
        return self._lines[self._next].partition(" ")[0] if self.is_left() else ""

    def take(self, word: str) -> str:
        """The rest of the next line, which begins with this word."""
        first, _, rest = self.line().partition(" ")
        if first != word:
            raise ParameterError(f"line {self._next} of the file must begin with `{word}`")
        return rest

    def number(self, word: str) -> int:
        """The number on the next line, which begins with this word."""
        return _number(self.take(word))

    def key(self) -> Union[int, str]:
        """A key as a number; one with capital letters as it is written."""
        digits = self.take("key")
        return digits if any(digit in "ABCDEF" for digit in digits) else _number(digits, 16)

    def rule(self, rest: Optional[str] = None) -> Rule:
        """A rule: the given words after `at S`, or the rule that begins with the next line."""
        word, _, model_and_numbers = (self.line() if rest is None else rest).partition(" ")
        if word == "rule" and model_and_numbers == "own":
            motion = self.program("motion")
            return Own(motion, self.program("change") if self.word() in ("change", "code") else None)
        model, *numbers = model_and_numbers.split(" ")
        if word != "rule" or model not in _MODELS:
            raise ParameterError(f"line {self._next} of the file is not a rule")
        try:
            rule: Rule = _MODELS[model](*(Fraction(_number(number), ALWAYS) for number in numbers))
        except TypeError:
            raise ParameterError(f"line {self._next} of the file has the wrong number of probabilities") from None
        return rule

    def program(self, kind: str) -> str:
        """A program of this kind: its one line `code X`, or its lines without `end`."""
        first = self._next
        heading = self.line()
        if heading.startswith("code "):
            return heading
        if heading != kind:
            raise ParameterError(f"line {self._next} of the file must be `{kind}`")
        while self.line() != "end":
            pass
        return "".join(line + "\n" for line in self._lines[first:self._next - 1])


def _number(digits: str, base: int = 10) -> int:
    """The number with these digits; raises `ParameterError` if they are none."""
    try:
        return int(digits, base)
    except ValueError:
        raise ParameterError(f"the file has {digits[:80]!r} instead of a number") from None
