"""The errors of this package. Each has `TrlabError` as its base, and there is one class per situation."""
from __future__ import annotations

from collections.abc import Mapping
from typing import Any, Optional


class TrlabError(Exception):
    """The base class of all errors of trlab."""


def set_first_cause(error: BaseException, text: str) -> None:
    """Make `text` the first cause in the chain of exceptions that Python prints before `error`, which keeps its type, its
    message and its chain. (Notes of exceptions need Python 3.11.)"""
    seen = {id(error)}
    while True:
        before = error.__cause__ or (None if error.__suppress_context__ else error.__context__)
        if before is None or id(before) in seen:
            error.__cause__ = TrlabError(text)
            return
        seen.add(id(before))
        error = before


class TrlabWarning(UserWarning):
    """An input that is valid, but may not do what you want. The message describes its effect, and how to change it."""


class ParameterError(TrlabError, ValueError, TypeError):
    """A parameter that has the wrong type, is out of range or contradicts another one. The message names it."""


class RenamedError(TrlabError):
    """A name of an older version. The message gives its replacement."""


class MissingLibraryError(TrlabError, ImportError):
    """A library that the analysis needs is not installed. The message says how to install it."""


class ProgramNotFoundError(TrlabError, FileNotFoundError):
    """The program `trlab` was not found, is damaged or not executable, or is another program."""


class ProgramError(TrlabError):
    """The program ended with an error other than a rejected input: its exit `status`, and the `message` that it wrote
    to standard error."""

    def __init__(self, status: int, message: str) -> None:
        super().__init__(status, message)
        self.status, self.message = status, message

    @property
    def said(self) -> str:
        raise RenamedError("a `ProgramError` no longer has `said`: use `message`")

    def __str__(self) -> str:
        message = self.message.strip() or _MEANING.get(self.status, "no message")
        return f"trlab ended with status {self.status}: {message}"


_MEANING = {3: "memory ran out", 4: "reading the input or writing the output failed"}


class RejectedInputError(TrlabError):
    """An input that the program rejects. The message is the text of `trlab explain`; the attributes are values of
    `trlab explain --json`:

    - `answer`: the output of the command, for example `fault line 5 cause 2`;
    - `line`, from 1 (0: the input is too long), and its rejected bytes `first` to `last`, from 1 (None: the whole
      line);
    - `cause`: the error number of an input, or None; `reason`: the error number of the verifier, also for a program
      within an input, or None;
    - `pc`: the rejected instruction of a program, from 0, or None;
    - `meaning`, and `found` and `advice`, which may be None;
    - `expected`: a list of strings; `facts`: a list of the facts known before the rejected instruction;
    - `repairs`: a list of dicts with `why`, and `edits` or else a `command` that accepts the input. An edit is a dict:
      the bytes `first` to `last` of `line` become `replacement`, which is inserted before `first` if `last` is
      `first` - 1."""

    def __init__(self, explanation: str, report: Mapping[str, Any]) -> None:
        super().__init__(explanation, report)
        error: Mapping[str, Any] = report["error"]
        self.explanation = explanation
        self.answer: str = report["answer"]
        self.line: int = error["line"]
        self.first: Optional[int] = error["first"]
        self.last: Optional[int] = error["last"]
        self.cause: Optional[int] = error["number"] if error["kind"] == "cause" else None
        verdict: Mapping[str, Any] = error["reason"] or {}
        self.reason: Optional[int] = error["number"] if error["kind"] == "reason" else verdict.get("number")
        self.pc: Optional[int] = error["pc"]
        self.meaning: str = error["meaning"]
        self.found: Optional[str] = error["found"]
        self.expected: list[str] = error["expected"]
        self.advice: Optional[str] = error["advice"]
        self.facts: list[str] = report["facts"]
        self.repairs: list[dict[str, Any]] = report["repairs"]

    def __str__(self) -> str:
        return self.explanation


class RuleError(TrlabError, ValueError):
    """A Python function that is not a rule, or whose program the verifier rejects. The message names the file, the line
    and the expression, and how to write it; the attributes are `file`, `line` (from 1) and `message`, which does not
    repeat them."""

    def __init__(self, file: str, line: int, message: str) -> None:
        super().__init__(file, line, message)
        self.file, self.line, self.message = file, line, message

    def __str__(self) -> str:
        return f"{self.file}, line {self.line}: {self.message}"


class IncompleteOutputError(TrlabError):
    """An output of the program that is shorter or longer than its input allows, for any exit status."""


class ExitStatusError(TrlabError):
    """The exit status of the program cannot be known, so that a failed run could pass for a good one. The message says
    why."""


class OutputFormatError(TrlabError, ValueError):
    """A text that is not an output of `trlab run`, `series` or `sweep`. The message names the line."""


class SnapshotsError(TrlabError, ValueError):
    """Snapshots that cannot give the requested result: they are not of consecutive steps, or not of one run. The
    message says why, and what to do."""


class ResultFilesError(TrlabError, ValueError):
    """Result files that are missing, cut off, damaged or of other inputs. The message names each file."""


class StudyFileError(TrlabError, ValueError):
    """A file that is not a study, or that another version of the program wrote."""


class FrameError(TrlabError, ValueError):
    """A data frame that cannot give the requested number. The message says what to do."""


class EstimateError(TrlabError, ValueError):
    """Data that do not allow the requested estimate. The message says what to do."""
