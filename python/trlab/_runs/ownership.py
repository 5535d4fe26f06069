"""Files that belong to a process: those of a killed process are removed, and those of a running process show that it
runs."""
from __future__ import annotations

import functools
import os
import secrets
import socket
import tempfile
import time
from collections.abc import Iterator
from contextlib import contextmanager, suppress
from pathlib import Path
from typing import NamedTuple, Optional

from .systems import after_fork, is_running

_MARK = "-trlab-"
_MAX_WAIT, _BETWEEN_LOOKS = 10, 0.02  # for the tasks of a run that is over, in seconds

# The files of this process that exist only as long as it works on them.
_OWNED: set[Path] = set()
after_fork(_OWNED.clear)


@functools.lru_cache(maxsize=None)
def machine() -> str:
    """The machine, and its space of process numbers: containers on one machine have spaces of their own."""
    try:
        space = os.stat("/proc/self/ns/pid").st_ino
    except OSError:
        space = 0
    return f"{socket.gethostname()}-{space}"


def new_path(folder: Path, kind: str) -> Path:
    """An unused hidden path of this process in a folder."""
    return folder / f".{kind}{_MARK}{machine()}-{os.getpid()}-{secrets.token_hex(8)}"


@contextmanager
def owned(path: Path) -> Iterator[Path]:
    """A path whose file is removed at the end of the block, or before if a signal ends this process."""
    _OWNED.add(path)
    try:
        yield path
    finally:
        path.unlink(missing_ok=True)
        _OWNED.discard(path)


def remove_owned() -> None:
    """Removes the files that this process owns now."""
    for path in list(_OWNED):
        with suppress(OSError):
            path.unlink(missing_ok=True)


def remove_abandoned(folder: Path) -> None:
    """Removes the files of `new_path` whose processes were on this machine and have ended."""
    for file in folder.glob(f".*{_MARK}{machine()}-*-*"):
        if _is_abandoned(file):
            # Files in a read-only folder stay.
            with suppress(OSError):
                file.unlink(missing_ok=True)


def _is_abandoned(file: Path) -> bool:
    """Whether the process of a file of this machine has ended. The number of the process is in the name of the file."""
    *_, process, _ = file.name.split("-")
    return process.isdecimal() and not is_running(int(process))


class Lease(NamedTuple):
    """A file that exists as long as a run continues, so that tasks in other processes can check it.

    Tasks on other machines see it if it is in a folder that both have."""

    path: str
    machine: str
    process: int

    @classmethod
    def new(cls, folder: Optional[Path]) -> Lease:
        """A lease of this process, in a folder that can be written to or in the one for temporary files."""
        if folder is None or not os.access(folder, os.W_OK):
            folder = Path(tempfile.gettempdir())
        return cls(str(new_path(folder, "running")), machine(), os.getpid())

    @contextmanager
    def held(self) -> Iterator[None]:
        """The run continues until the block ends."""
        with owned(Path(self.path)) as path:
            path.touch()
            yield

    def wait_for_tasks(self) -> None:
        """Waits until the tasks in other processes have noticed that the run is over, for 10 seconds at most."""
        path, latest = Path(self.path), time.monotonic() + _MAX_WAIT
        while any(path.parent.glob(f"{path.name}.*")) and time.monotonic() < latest:
            time.sleep(_BETWEEN_LOOKS)

    @contextmanager
    def task(self) -> Iterator[None]:
        """Marks that a task of this process is running, so that the run waits for it when it ends."""
        with owned(Path(f"{self.path}.{machine()}-{os.getpid()}-{secrets.token_hex(8)}")) as mark:
            mark.touch()
            yield

    def is_of_this_process(self) -> bool:
        """Whether the run belongs to this process."""
        return self._is_of_this_machine() and self.process == os.getpid()

    def is_over(self) -> bool:
        """Whether the run has ended. A process that was killed leaves the file, but is missed on its own machine."""
        return not os.path.exists(self.path) or (self._is_of_this_machine() and not is_running(self.process))

    def is_visible(self) -> bool:
        """Whether this process can see the file while the run continues. Another machine cannot if it does not share
        the folder, and a missing file does not mean there that the run is over."""
        return self._is_of_this_machine() or os.path.exists(self.path)

    def _is_of_this_machine(self) -> bool:
        """Whether the run belongs to a process of this machine."""
        return self.machine == machine()
