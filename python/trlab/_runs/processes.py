"""Processes of the program: started for one request, judged when they end, and stopped together."""
from __future__ import annotations

import atexit
import errno
import functools
import subprocess
import tempfile
import threading
from collections.abc import Generator, Iterator
from contextlib import contextmanager, suppress
from contextvars import ContextVar
from typing import IO, TYPE_CHECKING, NamedTuple, Optional

from .._errors import ProgramError, ProgramNotFoundError
from .children import Child
from .location import find_program
from .node import command_of
from .ownership import remove_owned
from .requests import Length, Request
from .signals import Ending, need_exit_statuses
from .systems import after_fork, wait_for_output

if TYPE_CHECKING:
    from .cache import Cache

REJECTED = 1
"""The exit status of `trlab explain` for an input that the program rejects."""

_BLOCK = 1 << 16
_MAX_MESSAGE = 1 << 16
_REJECTIONS = (b"fault ", b"refused ")
_NOT_FOUND = (errno.ENOENT, errno.EACCES, errno.ENOEXEC, errno.ENOTDIR, errno.ELOOP)


class RejectionError(ProgramError):
    """The program wrote that it rejects the input."""


class Processes:
    """The running processes of one `trlab.results`, which runs each input in a task, or of one call of the program
    outside of all tasks. They can be stopped together.

    Processes of a `results` inside a task belong to the `outer` one too."""

    def __init__(self, outer: Optional[Processes] = None, is_stopped: bool = False) -> None:
        self.is_stopped = is_stopped
        self._running: set[Child] = set()
        # A signal may come while the main thread holds it.
        self._lock, self._outer = threading.RLock(), outer

    def start(self, request: Request, source: IO[bytes], messages: IO[bytes]) -> Child:
        """A new process, which is killed if all were stopped before."""
        program = find_program()
        with self._lock, _ENDING.delayed():
            try:
                command = [*command_of(program), *request.arguments]
                process = Child(command, stdin=source, stdout=subprocess.PIPE, stderr=messages)
            except OSError as error:
                if error.errno in _NOT_FOUND:
                    raise ProgramNotFoundError(f"{program} cannot be run: {error.strerror}") from None
                raise
            self._add(process)
        return process

    def _add(self, process: Child) -> None:
        """Notes a process, and kills it if all were stopped before."""
        with self._lock:
            self._running.add(process)
            if self.is_stopped:
                process.kill()
        if self._outer is not None:
            self._outer._add(process)

    def remove(self, process: Child) -> None:
        """Forgets a process that has ended."""
        with self._lock:
            self._running.discard(process)
        if self._outer is not None:
            self._outer.remove(process)

    def stop(self) -> None:
        """Kills all processes, those that are started later too."""
        with self._lock:
            self.is_stopped = True
            for process in list(self._running):
                process.kill()


_ALL: set[Processes] = set()
after_fork(_ALL.clear)


def stop_all() -> None:
    """Kills all programs of this process of Python, and removes the files that it has begun."""
    for processes in list(_ALL):
        processes.stop()
    remove_owned()


_ENDING = Ending(stop_all)


@functools.lru_cache(maxsize=None)
def _stop_at_exit() -> None:
    """Has everything stopped when Python exits, also runs whose iterators are still held.

    Executors wait for their threads at an earlier time than that of `atexit`, so that this must come before."""
    with suppress(RuntimeError):
        getattr(threading, "_register_atexit", atexit.register)(stop_all)


@contextmanager
def new_processes(outer: Optional[Processes] = None) -> Iterator[Processes]:
    """Processes of a block, which end with this process of Python, also if SIGTERM or SIGHUP ends it."""
    processes = Processes(outer)
    _stop_at_exit()
    _ALL.add(processes)
    try:
        with _ENDING.caught():
            yield processes
    finally:
        _ALL.discard(processes)


class Setting(NamedTuple):
    """The processes and the cache that calls of the program belong to."""

    processes: Processes
    cache: Optional[Cache]


_SETTING: ContextVar[Optional[Setting]] = ContextVar("trlab_setting", default=None)


def setting() -> Optional[Setting]:
    """The setting of the task that runs now, or None outside of all tasks."""
    return _SETTING.get()


@contextmanager
def set_to(value: Setting) -> Iterator[None]:
    """Has all calls of the program inside the block belong to a setting."""
    token = _SETTING.set(value)
    try:
        yield
    finally:
        _SETTING.reset(token)


def output_of(request: Request) -> Iterator[bytes]:
    """The complete output of the program in blocks, from a cache if it is there, or while the program runs.

    After the last block, these are raised: `RejectionError`, instead of the output, if the program rejects the input;
    `ProgramError` if it ended with another error; `IncompleteOutputError`, for any exit status, if the output does not
    have the number of lines that follows from the input. If the iterator is closed early, the program is killed. With a
    cache the program has ended before the first block."""
    current = setting()
    return run(request) if current is None or current.cache is None else current.cache.output_of(request)


def run(request: Request) -> Generator[bytes, None, int]:
    """The same output, but not from a cache. The value at the end is the exit status, which is 0 except for an
    explanation of a rejected input."""
    need_exit_statuses()
    with _processes_now() as processes, tempfile.TemporaryFile() as source, tempfile.TemporaryFile() as messages:
        source.write(request.content())
        source.seek(0)
        length = Length(request)
        with processes.start(request, source, messages) as process:
            assert process.stdout is not None
            try:
                rejection = yield from _blocks(process.stdout, request, length)
                process.stdout.close()
                status = process.exit_status()
            except BaseException:
                # Also if the caller is interrupted or wants no more: the program does not continue without a reader.
                process.kill()
                raise
            finally:
                process.wait()
                processes.remove(process)
        if rejection:
            raise RejectionError(status, rejection.decode(errors="replace"))
        is_expected = status == 0 or status == REJECTED and request.is_explanation()
        if not is_expected:
            messages.seek(0)
            raise ProgramError(status, messages.read(_MAX_MESSAGE).decode(errors="replace"))
        length.end()
        return status


@contextmanager
def _processes_now() -> Iterator[Processes]:
    """The processes of the task that runs now, or of one call."""
    current = setting()
    if current is not None:
        yield current.processes
        return
    with new_processes() as processes:
        yield processes


def _blocks(output: IO[bytes], request: Request, length: Length) -> Generator[bytes, None, bytes]:
    """The blocks of an output; if it is a rejection there are none, and its text is returned."""
    wait_for_output(output)
    block = output.read(max(map(len, _REJECTIONS)))
    if block.startswith(_REJECTIONS) and not request.is_explanation():
        return block + output.read(_MAX_MESSAGE)
    while block:
        length.add(block)
        yield block
        block = output.read1(_BLOCK)  # type: ignore[attr-defined]
    return b""
