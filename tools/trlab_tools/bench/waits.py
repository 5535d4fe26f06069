"""Rows of a program that waits: its threads should sleep."""
import os
import subprocess
import time
from collections.abc import Callable, Iterator, Sequence
from typing import NamedTuple

from ..processes import Process
from . import measuring
from .rows import Programs, Row, wanted_text

SECONDS = 1.0
COUNTS = 1, 4
CELLS, CARS = 100_000, 30_000
# The names of the lines of /proc/PID/status with the numbers of context switches.
SWITCHES = "voluntary_ctxt_switches:", "nonvoluntary_ctxt_switches:"


def switches_of(pid: int) -> dict[str, int]:
    """The number of context switches of each thread of a process."""
    switches = {}
    for thread in os.listdir(f"/proc/{pid}/task"):
        with open(f"/proc/{pid}/task/{thread}/status") as status:
            words = [line.split() for line in status]
        switches[thread] = sum(int(word[1]) for word in words if word[0] in SWITCHES)
    return switches


class Waiting(NamedTuple):
    """The context switches of a process in some time, and its threads at the end."""

    switches: int
    threads: int


def watched(program: Process, seconds: float) -> Waiting:
    """Watches a process for `seconds` seconds, after it has had time to start."""
    time.sleep(0.3)
    before = switches_of(program.pid)
    time.sleep(seconds)
    after = switches_of(program.pid)
    return Waiting(sum(after.values()) - sum(before.values()), len(after))


def without_input(command: Sequence[str]) -> Process:
    """A process that waits for the last line of its input."""
    program = subprocess.Popen(command, stdin=subprocess.PIPE, stdout=subprocess.DEVNULL)
    assert program.stdin is not None
    text = measuring.job([measuring.spread(CELLS, CARS)], measuring.BRAKING, 1)
    program.stdin.write(text[:-2])
    program.stdin.flush()
    return program


def without_reader(command: Sequence[str]) -> Process:
    """A process whose output nobody reads."""
    program = subprocess.Popen(command, stdin=subprocess.PIPE, stdout=subprocess.PIPE)
    assert program.stdin is not None
    program.stdin.write(measuring.job([measuring.spread(CELLS, CARS)], measuring.BRAKING, 100))
    program.stdin.close()
    return program


def row_of(programs: Programs, awaited: str, start: Callable[[Sequence[str]], Process], count: int) -> Row:
    """The row of a process with `count` workers that waits for a second."""
    program = start([programs.trlab, "run", "--workers", str(count)])
    try:
        switches, threads = watched(program, SECONDS)
    finally:
        program.kill()
        program.wait()
    title = f"waiting for {awaited}, {count} worker{'s' if count > 1 else ''}"
    beside = f"{switches} context switches in {SECONDS:.0f} s, {threads} thread{'s' if threads > 1 else ''}"
    return Row(title, "", "", "", {}, beside, (wanted_text("no context switches", switches == 0),))


def rows(programs: Programs, is_quick: bool, folder: str) -> Iterator[Row]:
    """All rows of a program that waits."""
    for awaited, start in ("its input", without_input), ("its reader", without_reader):
        for count in COUNTS:
            yield row_of(programs, awaited, start, count)
