"""Programs that replace trlab, child processes of Python, and the processes that they leave behind."""
import os
import signal
import stat
import subprocess
import sys
import uuid
from collections.abc import Mapping, Sequence
from contextlib import AbstractContextManager
from pathlib import Path
from typing import Union
from unittest import mock

from tests.waiting import holds
from trlab import find_program

PYTHON = Path(__file__).resolve().parents[1]
MARK = "TRLAB_TEST_MARK"
Folder = Union[str, os.PathLike[str]]


class Marked(subprocess.Popen[str]):
    """A process with pipes, and the mark that its environment and those of its own children have."""

    def __init__(self, mark: str, command: Sequence[Folder], environment: Mapping[str, str]) -> None:
        pipe = subprocess.PIPE
        super().__init__(command, env=environment, text=True, stdin=pipe, stdout=pipe, stderr=subprocess.DEVNULL)
        self.mark = mark

    def comes_to_run(self, count: int) -> bool:
        """Whether this number of programs comes to run for the process before it ends."""
        numbers: list[int] = []

        def run_or_cannot() -> bool:
            numbers.append(len(marked(self.mark, find_program())))
            return numbers[-1] == count or self.poll() is not None

        # The programs are not counted again, because they may have ended since.
        return holds(run_or_cannot) and numbers[-1] == count

    def read_line(self) -> str:
        """The next line of the output, or nothing at its end."""
        assert self.stdout is not None
        return self.stdout.readline()

    def write_line(self, line: str = "") -> None:
        """Write a line to the standard input."""
        assert self.stdin is not None
        self.stdin.write(f"{line}\n")
        self.stdin.flush()


def logging_program(folder: Folder) -> Path:
    """A script that runs trlab, and writes the first argument of each call into a file."""
    path = Path(folder) / "logging_trlab"
    path.write_text(f'#!/bin/sh\necho "$1" >> "{folder}/calls"\nexec "{find_program()}" "$@"\n')
    path.chmod(0o755)
    return path


def replaced_program(folder: Folder, lines: str) -> AbstractContextManager[object]:
    """Run a program of a few lines of the shell instead of trlab."""
    path = Path(folder) / "trlab"
    path.write_text('#!/bin/sh\n[ "$1" != --version ] || exec echo trlab 0\n' + lines)
    path.chmod(path.stat().st_mode | stat.S_IXUSR)
    return mock.patch.dict(os.environ, TRLAB=str(path))


def calls(folder: Folder, argument: str) -> int:
    """The number of calls of the program with this word."""
    file = Path(folder) / "calls"
    return file.read_text().split().count(argument) if file.exists() else 0


def child(script: str, *arguments: Folder, **changes: str) -> Marked:
    """A child process of Python that runs a script, with a mark in its environment that its own children inherit."""
    mark = uuid.uuid4().hex
    environment = {**os.environ, "PYTHONPATH": str(PYTHON), "TRLAB": find_program(), MARK: mark, **changes}
    command = [sys.executable, "-c", script, *arguments]
    return Marked(mark, command, environment)


def marked(mark: str, name: str = "") -> list[int]:
    """The numbers of the processes with a mark whose command line begins with a name, except zombies."""
    numbers = []
    for folder in Path("/proc").glob("[0-9]*"):
        try:
            environment, command_line = (folder / "environ").read_bytes(), (folder / "cmdline").read_bytes()
        except OSError:
            continue
        has_mark = f"{MARK}={mark}".encode() in environment.split(b"\0")
        # The command line of a zombie is empty.
        if has_mark and command_line and command_line.startswith(name.encode()):
            numbers.append(int(folder.name))
    return numbers


def kill(process: Marked) -> None:
    """Kills a child and the processes that it started itself, and waits for its pipe to close."""
    process.kill()
    process.wait()
    for number in marked(process.mark):
        os.kill(number, signal.SIGKILL)
    process.communicate()
