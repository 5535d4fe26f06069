"""Processes that are observed while they run."""
import subprocess
from typing import IO

Process = subprocess.Popen[bytes]


def input_of(process: Process) -> IO[bytes]:
    """The standard input of a process that was started with a pipe to it."""
    assert process.stdin is not None
    return process.stdin


def output_of(process: Process) -> IO[bytes]:
    """The standard output of a process that was started with a pipe from it."""
    assert process.stdout is not None
    return process.stdout


def peak_of(pid: int) -> int:
    """The peak memory of a process so far, in bytes; 0 if it has ended."""
    try:
        with open(f"/proc/{pid}/status", encoding="ascii") as status:
            return next((int(line.split()[1]) * 1024 for line in status if line.startswith("VmHWM")), 0)
    except OSError:
        return 0
