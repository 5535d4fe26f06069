"""Differences between operating systems. The package is tested on Linux; on macOS and Windows it is untested."""
from __future__ import annotations

import os
import platform
import select
import signal
import subprocess
import sys
from collections.abc import Callable
from typing import IO

ENDING_SIGNALS = tuple(getattr(signal, name) for name in ("SIGTERM", "SIGHUP") if hasattr(signal, name))
"""The signals that end this process and its programs with it."""

SPAN = 0.5
"""The seconds after which a wait of the main thread begins again. Python runs the handler of a signal in the main
thread, between two of its own instructions. A signal that comes just before a wait, or to another thread, is noticed
only when the wait ends."""


def wait_for_output(stream: IO[bytes]) -> None:
    """Waits until a pipe has its first bytes or is closed. On Windows, which cannot wait for pipes, it returns at once."""
    if hasattr(select, "poll"):
        poll = select.poll()
        poll.register(stream, select.POLLIN)
        while not poll.poll(1000 * SPAN):
            pass


def fits_native_programs() -> bool:
    """Whether this machine can run the native programs, which are for x86-64 Linux."""
    return sys.platform == "linux" and platform.machine() in ("x86_64", "AMD64")


def after_fork(call: Callable[[], object]) -> None:
    """Has a call run in each new process of the system that this one forks. On Windows no process does."""
    if hasattr(os, "register_at_fork"):
        os.register_at_fork(after_in_child=call)


def processors() -> int:
    """How many processors this process may use."""
    return len(os.sched_getaffinity(0)) if hasattr(os, "sched_getaffinity") else os.cpu_count() or 1


def is_running(number: int) -> bool:
    """Whether a process of this machine runs. On Windows, where the test would end it, each is taken to run."""
    if os.path.isdir("/proc/self"):
        return os.path.exists(f"/proc/{number}")
    if os.name == "nt":
        return True
    try:
        os.kill(number, 0)
    except ProcessLookupError:
        return False
    except PermissionError:
        pass
    return True


def ignores_ends_of_children() -> bool:
    """Whether the exit statuses of child processes are forgotten, because SIGCHLD is ignored."""
    return hasattr(signal, "SIGCHLD") and signal.getsignal(signal.SIGCHLD) == signal.SIG_IGN


def can_ask_for_ends() -> bool:
    """Whether the system says how a child process ended before it forgets it: not on Windows, and on macOS from Python
    3.13 on."""
    return hasattr(os, "waitid")


def replace_process(command: list[str]) -> None:
    """Run a command instead of this process. On Windows, where the caller would not wait for it, run it and end with
    its status."""
    if os.name == "nt":
        sys.exit(subprocess.call(command))
    os.execv(command[0], command)
