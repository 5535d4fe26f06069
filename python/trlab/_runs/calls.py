"""Calls of the program, and its errors."""
from __future__ import annotations

import io
import json
from collections.abc import Generator, Iterator, Sequence
from contextlib import closing
from typing import NamedTuple

from .._errors import OutputFormatError, ProgramError, RejectedInputError
from .location import find_program, sha256_of_program
from .processes import REJECTED, RejectionError, output_of, run
from .requests import Request

# `explain` reads a rejected input as one of these commands does.
_READ_AS = {"series": "run"}


def ask(arguments: Sequence[str], text: str) -> str:
    """The output of the program for these arguments and this input."""
    return _decoded(ask_for_bytes(arguments, text))


def ask_for_bytes(arguments: Sequence[str], text: str) -> bytes:
    """The same output as bytes."""
    return b"".join(_output_of(arguments, text))


def ask_by_line(arguments: Sequence[str], text: str) -> Iterator[str]:
    """Iterate over the lines of the output while the program runs, keeping few of them at a time."""
    unfinished = b""
    with closing(_output_of(arguments, text)) as blocks:
        for block in blocks:
            end = block.rfind(b"\n") + 1
            if end:
                yield from io.StringIO(_decoded(unfinished + block[:end]))
                unfinished = b""
            unfinished += block[end:]
    if unfinished:
        yield _decoded(unfinished)


def _output_of(arguments: Sequence[str], text: str) -> Generator[bytes, None, None]:
    """The output in blocks. Raises `RejectedInputError` if the input is rejected."""
    request = Request(tuple(arguments), text)
    try:
        yield from output_of(request)
    except RejectionError as rejection:
        raise _explanation(request, rejection) from None


def _explanation(request: Request, rejection: ProgramError) -> Exception:
    """The error for an input that the program rejects."""
    command = _READ_AS.get(request.arguments[0], request.arguments[0])
    explanation = explained(request.text, "--json", command)
    if explanation.returncode != REJECTED:
        message = f"it rejects an input that `trlab explain {command}` accepts: {rejection.message}"
        return ProgramError(rejection.status, message)
    return RejectedInputError(explained(request.text, command).stdout.rstrip("\n"), json.loads(explanation.stdout))


class Explanation(NamedTuple):
    """The output of `trlab explain`, and its exit status, which is 1 for a rejected input."""

    stdout: str
    returncode: int


def explained(text: str, *arguments: str) -> Explanation:
    """The explanation of an input for these arguments: a command that would read it (by default the one that the first
    line of the input is for), and `--json` for the form."""
    status: list[int] = []

    def blocks() -> Iterator[bytes]:
        """The blocks of the explanation; the exit status comes after them."""
        status.append((yield from run(Request(("explain", *arguments), text))))

    return Explanation(_decoded(b"".join(blocks())), status[0])


def version() -> str:
    """The version of the program, the logic of its proof, and its SHA-256, one per line. Raises `ProgramNotFoundError`
    if there is no program."""
    return ask(["--version"], "") + f"SHA-256 {sha256_of_program(find_program())}"


def _decoded(output: bytes) -> str:
    """An output as text. Raises `OutputFormatError` if it is not one."""
    try:
        return output.decode("utf-8")
    except UnicodeDecodeError as error:
        raise OutputFormatError(f"the program wrote bytes that are not text: {error}") from None
