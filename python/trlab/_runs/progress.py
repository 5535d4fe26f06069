"""How far a run of many inputs is: a line on standard error, or a call of the caller's function."""
from __future__ import annotations

import sys
import time
from collections.abc import Callable
from typing import Optional, Union

Progress = Union[None, bool, Callable[[int, int], object]]
"""True for a line on standard error, or a function of the numbers of finished and of all inputs."""


class Line:
    """Writes `12 of 40 done, 0:15` to standard error: over itself on a terminal, else at most once per percent."""

    def __init__(self) -> None:
        self._begun, self._percent, self._is_open = time.monotonic(), -1, False

    def __call__(self, done: int, total: int) -> None:
        minutes, seconds = divmod(int(time.monotonic() - self._begun), 60)
        line = f"{done} of {total} done, {minutes}:{seconds:02d}"
        if sys.stderr.isatty():
            sys.stderr.write(f"\r{line}")
            self._is_open = True
        elif done * 100 // total > self._percent:
            self._percent = done * 100 // total
            sys.stderr.write(f"{line}\n")
        sys.stderr.flush()

    def end(self) -> None:
        """Ends the line on a terminal."""
        if self._is_open:
            sys.stderr.write("\n")


def reporter(progress: Progress) -> Optional[Callable[[int, int], object]]:
    """The function that is called after each input, if there is one."""
    if progress is None or progress is False:
        return None
    return Line() if progress is True else progress
