"""Signals: one without which exit statuses are lost, and those that end this process and its programs with it."""
from __future__ import annotations

import os
import signal
import threading
from collections.abc import Callable, Iterator
from contextlib import contextmanager
from types import FrameType
from typing import Optional

from .._errors import ExitStatusError
from .systems import ENDING_SIGNALS, after_fork, ignores_ends_of_children


def need_exit_statuses() -> None:
    """Raises `ExitStatusError` if SIGCHLD is ignored: Linux then forgets how a program ended, and Python calls it
    success."""
    if ignores_ends_of_children():
        raise ExitStatusError(
            "SIGCHLD is ignored, possibly since before Python started, so that a failed run would go unnoticed: "
            "call signal.signal(signal.SIGCHLD, signal.SIG_DFL) first"
        )


class Ending:
    """Has SIGTERM and SIGHUP call a function before they end this process, as long as there is a run.

    Only signals that have their default action are caught, and only on request of the main thread, because Python runs
    their handlers in that thread."""

    def __init__(self, stop: Callable[[], object]) -> None:
        self._stop, self._users = stop, 0
        self._is_delayed, self._number = False, 0
        after_fork(self._forget)

    @contextmanager
    def caught(self) -> Iterator[None]:
        """During the block the signals are caught."""
        is_user = threading.current_thread() is threading.main_thread()
        if is_user:
            self._users += 1
            self._replace(signal.SIG_DFL, self._end)
        try:
            yield
        finally:
            # A generator may end in another thread than it began in: then the handlers stay, which changes nothing.
            if is_user and threading.current_thread() is threading.main_thread():
                self._users -= 1
                if self._users == 0:
                    self._replace(self._end, signal.SIG_DFL)

    @contextmanager
    def delayed(self) -> Iterator[None]:
        """A signal waits until the end of the block, which is short. Otherwise a program that starts inside the block, and
        is not noted yet, would continue when this process has ended."""
        if threading.current_thread() is not threading.main_thread():
            yield
            return
        self._is_delayed = True
        try:
            yield
        finally:
            self._is_delayed = False
            if self._number:
                self._end(self._number, None)

    def _replace(self, old: object, new: object) -> None:
        """Replaces the handlers of these signals that are `old`."""
        for number in ENDING_SIGNALS:
            if signal.getsignal(number) == old:
                signal.signal(number, new)  # type: ignore[arg-type]

    def _end(self, number: int, _: Optional[FrameType]) -> None:
        """Stops everything, and ends this process by the signal."""
        if self._is_delayed:
            self._number = number
            return
        self._stop()
        signal.signal(number, signal.SIG_DFL)
        os.kill(os.getpid(), number)
        # The first process of a container does not die by its own signals.
        os._exit(128 + number)

    def _forget(self) -> None:
        """A new process of the system has nothing to stop."""
        self._users, self._is_delayed, self._number = 0, False, 0
        self._replace(self._end, signal.SIG_DFL)
