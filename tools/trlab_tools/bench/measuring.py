"""The programs that the benchmarks measure, their inputs, and runs that are timed and compared.

The proved program is that of ./trlab, or the one that TRLAB names. All others are compiled for the same processor level."""
import filecmp
import os
import random
import re
import subprocess
import sys
import time
from collections.abc import Callable, Hashable, Iterable, Mapping, Sequence
from typing import NamedTuple, Optional, TypeVar

from .. import TOP
from ..processes import peak_of

Name = TypeVar("Name", bound=Hashable)

BENCH = os.path.join(TOP, "tools", "bench")
WITHOUT_PROOFS = ["plain", "interpreter"]
# The rules that are measured, with the number of lanes of each: without random numbers; to brake with probability 1/4; with 1/64,
# and 3/4 for stopped cars; and with 1/4, where cars change lanes with probability 1/2.
DETERMINISTIC, BRAKING = "nasch 0", "nasch 536870912"
SLOW_TO_START, CHANGING = "vdr 33554432 1610612736", "rickert 536870912 1073741824"
LANES_OF_RULE = {DETERMINISTIC: 1, BRAKING: 1, SLOW_TO_START: 1, CHANGING: 2}
MAX_EXTENSION = 2  # the maximum number of turns, as a multiple of the planned number
REPEATS = 5  # turns of a run that measures its own time
# Two times agree if they differ by at most this share, or by this number of seconds.
AGREEING_SHARE, AGREEING_SECONDS = 0.02, 0.0005
SETTLED: list[bool] = []  # for each best time whether it was found twice


class Time(NamedTuple):
    """The time of a run in seconds: wall-clock time, and CPU time of all its threads."""

    clock: float
    cpu: float


NO_TIME = Time(0, 0)


def level(program: str) -> str:
    """The processor level for which a program is compiled. Its message for older processors names this level."""
    with open(program, "rb") as file:
        match = re.search(rb"x86-64-v[1-4]", file.read())
    return match[0].decode() if match else "x86-64"


def build(level: str, features: Sequence[str] = ()) -> list[str]:
    """Builds the programs without proofs for a processor level; returns the paths of `plain` and `interpreter`."""
    folder = os.path.join(BENCH, "target", "-".join([level, *features]))
    words = ["cargo", "build", "--release", "--quiet", "--offline", "--target-dir", folder]
    enabled = [f"{name}/{feature}" for name in WITHOUT_PROOFS for feature in features]
    env = {**os.environ, "RUSTFLAGS": f"-C target-cpu={level}"}
    subprocess.run(words + ["--features", ",".join(enabled)], cwd=BENCH, check=True, env=env)
    return [os.path.join(folder, "release", name) for name in WITHOUT_PROOFS]


def python_with(*modules: str) -> Optional[str]:
    """A Python that has these modules: the one that runs this, or otherwise the system's; or None."""
    for python in (sys.executable, "/usr/bin/python3"):
        words = [python, "-c", f"import {', '.join(modules)}"]
        if os.access(python, os.X_OK) and subprocess.run(words, stderr=subprocess.DEVNULL).returncode == 0:
            return python
    return None


def machine() -> str:
    """A line about the machine: its processors, and how busy they are."""
    with open("/proc/cpuinfo") as lines:
        name = next((line.partition(": ")[2].strip() for line in lines if line.startswith("model name")), "a processor")
    return f"{os.cpu_count()} processors ({name}), load {os.getloadavg()[0]:.1f} at the start"


def spread(length: int, cars: int, seed: int = 1) -> str:
    """A lane of stopped cars in random cells."""
    cells = ["."] * length
    for place in random.Random(seed).sample(range(length), cars):
        cells[place] = "0"
    return "".join(cells)


def even(length: int, cars: int, lanes: int = 1) -> list[str]:
    """The lanes of stopped cars, evenly spaced as in a sweep."""
    cells = [["."] * length for _ in range(lanes)]
    for number in range(cars):
        place = number * lanes * length // cars
        cells[place % lanes][place // lanes] = "0"
    return ["".join(lane) for lane in cells]


def job(lanes: Iterable[str], rule: str, steps: int) -> bytes:
    """A job of a road with these lanes."""
    lines = ["road 1", "key " + 64 * "0", "limit 5"] + ["lane " + lane for lane in lanes]
    return ("\n".join(lines + ["rule " + rule, f"steps {steps}"]) + "\n").encode()


def sweep(rule: str, cells: int, points: Iterable[int], steps: int, lanes: int = 1) -> bytes:
    """A sweep whose points are numbers of cars, and which counts all steps."""
    lines = ["sweep 1", "key " + 64 * "0", "limit 5", f"length {cells}", f"lanes {lanes}", "rule " + rule, "warm 0"]
    return ("\n".join(lines + [f"measure {steps}"] + [f"cars {cars}" for cars in points]) + "\n").encode()


def write(path: str, text: bytes) -> str:
    """Writes an input into a file, and returns its path."""
    with open(path, "wb") as file:
        file.write(text)
    return path


def timed(command: Sequence[str], path: str) -> Time:
    """The time of a run on the input in a file, in seconds; its output is discarded."""
    with open(path, "rb") as text:
        start = time.perf_counter()
        program = subprocess.Popen(command, stdin=text, stdout=subprocess.DEVNULL)
        _, status, used = os.wait4(program.pid, 0)
        clock = time.perf_counter() - start
    program.returncode = os.waitstatus_to_exitcode(status)
    if program.returncode != 0:
        sys.exit(f"{' '.join(command)} ended with {program.returncode}")
    return Time(clock, used.ru_utime + used.ru_stime)


def own_time(command: Sequence[str], path: str) -> Time:
    """The best time of `REPEATS` turns, in seconds, which a program measures itself and prints on standard error."""
    env = {**os.environ, "TURNS": str(REPEATS)}
    with open(path, "rb") as text:
        process = subprocess.run(command, stdin=text, stdout=subprocess.DEVNULL, stderr=subprocess.PIPE, check=True, env=env)
    return Time(*map(float, process.stderr.split()))


class Run(NamedTuple):
    """A run to be measured: a command, the path of its input, and the function that measures it."""

    command: Sequence[str]
    path: str
    measure: Callable[[Sequence[str], str], Time] = timed


def turns(runs: Mapping[Name, Run], count: int) -> dict[Name, list[Time]]:
    """The times of runs, by their names. The runs alternate, `count` times each."""
    times_by_name: dict[Name, list[Time]] = {name: [] for name in runs}
    for _ in range(count):
        for name, run in runs.items():
            times_by_name[name].append(run.measure(run.command, run.path))
    return times_by_name


def best(times: Iterable[Time]) -> Time:
    """The minimum of several times: of the wall-clock times, and of the CPU times."""
    clocks, cpus = zip(*times)
    return Time(min(clocks), min(cpus))


def is_settled(times: Iterable[Time]) -> bool:
    """Whether the two smallest CPU times of a run agree."""
    least, second = sorted(time.cpu for time in times)[:2]
    return second - least <= max(AGREEING_SHARE * least, AGREEING_SECONDS)


def best_of(runs: Mapping[Name, Run], count: int) -> dict[Name, Time]:
    """The best times of runs, by their names. The runs alternate `count` times, and those whose two smallest times differ up
    to `MAX_EXTENSION` times as often, because on a shared machine even the best of a few runs may be disturbed."""
    times_by_name = turns(runs, count)
    for _ in range((MAX_EXTENSION - 1) * count):
        more = {name: run for name, run in runs.items() if not is_settled(times_by_name[name])}
        for name, times in turns(more, 1).items():
            times_by_name[name] += times
    SETTLED.extend(is_settled(times) for times in times_by_name.values())
    return {name: best(times) for name, times in times_by_name.items()}


def agreement() -> str:
    """The number of best times so far that were found twice."""
    bounds = f"{100 * AGREEING_SHARE:.0f} percent or {1000 * AGREEING_SECONDS} ms"
    return f"Of {len(SETTLED)} best times, {sum(SETTLED)} were confirmed by another run, to {bounds}"


def memory(command: Sequence[str], path: str, output: str = os.devnull) -> int:
    """The peak memory in bytes of a run on the input in a file."""
    peak = 0
    with open(path, "rb") as text, open(output, "wb") as file:
        program = subprocess.Popen(command, stdin=text, stdout=file)
        while program.poll() is None:
            peak = max(peak, peak_of(program.pid))
            time.sleep(0.001)
    if program.returncode != 0:
        sys.exit(f"{' '.join(command)} ended with {program.returncode}")
    return peak


def compare(commands: Sequence[Sequence[str]], path: str, folder: str) -> None:
    """Runs each command on an input once, and ends if two outputs differ."""
    outputs = [os.path.join(folder, f"output{number}") for number in range(len(commands))]
    for command, output in zip(commands, outputs):
        with open(path, "rb") as text, open(output, "wb") as file:
            process = subprocess.run(command, stdin=text, stdout=file, stderr=subprocess.PIPE)
        if process.returncode != 0:
            sys.exit(f"{' '.join(command)} ended with {process.returncode}: {process.stderr.decode()}")
        if not filecmp.cmp(outputs[0], output, shallow=False):
            sys.exit(f"{' '.join(command)} and {' '.join(commands[0])} write different outputs for {path}")
