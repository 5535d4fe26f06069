"""Calls of the program, and how long their outputs are: the number of lines follows from the input."""
from __future__ import annotations

import re
from typing import NamedTuple, Optional

from .._errors import IncompleteOutputError, ParameterError

# No row of a table is longer: 14 numbers of at most 20 digits.
_MAX_ROW = 400
# No explanation, and no program that is checked, is longer.
_MAX_ANSWER = 1 << 24


class Windows(NamedTuple):
    """The width of the windows of a series, or the distance of the snapshots of a run, and the first step, both in
    steps."""

    every: int
    first: int


class Request(NamedTuple):
    """A call of the program: its arguments and its input."""

    arguments: tuple[str, ...]
    text: str

    def content(self) -> bytes:
        """The input as the program reads it. Bytes that were not UTF-8 when Python read them are restored."""
        try:
            return self.text.encode("utf-8", "surrogateescape")
        except UnicodeEncodeError as error:
            raise ParameterError(f"the input has a character that no file has: {error}") from None

    def is_explanation(self) -> bool:
        """Whether the output explains an input. Its exit status is then 1 if the input is rejected."""
        return self.arguments[:1] == ("explain",)

    def lines(self) -> Optional[int]:
        """How many lines the output has if the program accepts the input; None if that does not follow from the
        input."""
        command = self.arguments[0] if self.arguments else ""
        if command == "sweep":
            return 1 + self.text.count("\ncars ")
        if command not in ("run", "series"):
            return None
        every, first = self.windows()
        counted = self.steps() - first
        if command == "series":
            return 1 + max(0, counted) // every
        snapshots, lines_per_snapshot = counted // every + 1, 1 + self.text.count("\nlane ")
        return 0 if counted < 0 else snapshots * lines_per_snapshot

    def windows(self) -> Windows:
        """The windows of a series, or the snapshots of a run."""
        return Windows(every=max(1, self._number("every", 1)), first=self._number("from", 0))

    def steps(self) -> int:
        """The number of steps of a job."""
        match = re.compile("[0-9]{1,10}").match(self.text, self.text.rfind("\nsteps ") + len("\nsteps "))
        return int(match[0]) if match else 0

    def _number(self, name: str, default: int) -> int:
        """The number of an option."""
        arguments = " ".join(self.arguments)
        match = re.search(f" --{name}[ =]([0-9]{{1,18}})(?= |$)", arguments, re.ASCII)
        if match is None and f"--{name}" in arguments:
            raise ParameterError(f"--{name} needs a whole number: {arguments}")
        return int(match[1]) if match else default

    def __str__(self) -> str:
        return " ".join(["trlab", *self.arguments])


class Length:
    """How long an output is so far. Raises `IncompleteOutputError` if it is longer than its input allows, or ends too
    early."""

    def __init__(self, request: Request) -> None:
        self._request, self._expected_lines = request, request.lines()
        longest = max(_MAX_ROW, *map(len, request.text.split("\n")))
        self._max_bytes = _MAX_ANSWER if self._expected_lines is None else self._expected_lines * longest
        self._lines = self._bytes = 0
        self._is_open = False

    def add(self, block: bytes) -> None:
        """Counts the next bytes of the output."""
        self._lines += block.count(b"\n")
        self._bytes += len(block)
        self._is_open = not block.endswith(b"\n")
        has_more_lines = self._expected_lines is not None and self._lines + self._is_open > self._expected_lines
        if has_more_lines or self._bytes > self._max_bytes:
            limit = "an answer has"
            if self._expected_lines is not None:
                limit = f"the {self._expected_lines} lines that its input gives"
            raise self._error(f"wrote more than {limit}")

    def end(self) -> None:
        """Judges the whole output."""
        if self._expected_lines is not None and self._lines != self._expected_lines:
            raise self._error(f"wrote {self._lines} of the {self._expected_lines} lines that its input gives")
        if self._is_open:
            raise self._error("wrote a last line without its end")

    def _error(self, did: str) -> IncompleteOutputError:
        """The error of an output that is too long or too short."""
        return IncompleteOutputError(
            f"`{self._request}` {did}, so its output is not a result. Run it again; if that does not help, install "
            "trlab again"
        )
