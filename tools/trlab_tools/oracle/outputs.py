"""Whether an output of the program has the form that docs/FILES.md describes.

reader.py reads the input, so that a fault is compared by its line and cause. The snapshots of a run are compared with each
other: each car has moved by its speed, over cells that were empty, from the cell of a car of the snapshot before."""
import functools
import re
from collections.abc import Callable
from typing import NamedTuple, Optional, Union

from .. import program as trlab
from .programs import Fault, Instruction, budget, disassemble
from .reader import EMPTY, SPEEDS, Check, Job, Sweep, read_check, read_job, read_sweep

# An exit status, or the reason why there is none.
Status = Union[int, str]

# The outputs of `trlab check` for a rejected program, and a note, with the ranges of numbers, flags and the side cell.
REFUSED_PROGRAM = re.compile(rb"refused at (0|[1-9][0-9]*) reason ([1-9]|1[0-2])\n")
NOTE = re.compile(rb"note (0|[1-9][0-9]*)(?: r[0-7] (?:[0-9]+ [0-9]+|flag|side))*(?: side)?\n")
HEADING = b"cars,cells,steps,distance,stopped,changes,flow\n"
ROW = re.compile(rb"[0-9]+(,[0-9]+){6}")
MILLION = 1000000


class Expectation(NamedTuple):
    """A test of the status and the output of a command, and the meaning of its input."""

    is_right: Callable[[Status, bytes], bool]
    meaning: Union[Job, Sweep, Check, Fault]


class Place(NamedTuple):
    """A place on the road."""

    lane: int
    cell: int


def fault_line(fault: Fault) -> bytes:
    """The line that the program prints for a fault."""
    return f"fault line {fault.line} cause {fault.cause}\n".encode()


@functools.lru_cache(maxsize=4096)
def reason_of(kind: str, text: bytes) -> Optional[int]:
    """The reason for which `trlab check` rejects a program in its canonical form, or None."""
    status, output = trlab.run(["check"], kind.encode() + b"\n" + text)
    refusal = REFUSED_PROGRAM.fullmatch(output)
    return int(refusal[2]) if status == trlab.REJECTED and refusal else None


def verdict(kind: str, program: list[Instruction]) -> Optional[int]:
    """The reason for which a program is rejected, or None."""
    return reason_of(kind, disassemble(program))


def is_check(check: Check, status: Status, output: bytes) -> bool:
    """Whether an output says that a program is accepted, with its canonical form, or that it is rejected."""
    refusal = REFUSED_PROGRAM.fullmatch(output)
    if refusal:
        return status == trlab.REJECTED and int(refusal[1]) < len(check.program)
    longest_path = budget(check.program)
    if status != trlab.DONE or longest_path is None:
        return False
    accepted = b"accepted budget %d\n" % longest_path + disassemble(check.program)
    notes = output[len(accepted):].splitlines(keepends=True)
    expected_notes = range(len(check.program) if check.notes else 0)
    return output.startswith(accepted) and list(map(number_of_note, notes)) == list(expected_notes)


def number_of_note(line: bytes) -> Optional[int]:
    """The number of the instruction to which a note belongs; None if the line is not a note."""
    note = NOTE.fullmatch(line)
    return int(note[1]) if note else None


def cars_of(lanes: list[bytes]) -> dict[Place, int]:
    """The speed of each car of a road by its place."""
    return {
        Place(number, cell): SPEEDS.index(character)
        for number, lane in enumerate(lanes)
        for cell, character in enumerate(lane)
        if character != EMPTY
    }


def starts_of(lanes: list[bytes], length: int) -> Optional[dict[Place, int]]:
    """The speed of each car by the place from which it has driven; None if two cars came from one place."""
    starts: dict[Place, int] = {}
    for (lane, cell), speed in cars_of(lanes).items():
        start = Place(lane, (cell - speed) % length)
        if start in starts or speed >= length:
            return None
        starts[start] = speed
    return starts


def follows(before: list[bytes], after: list[bytes], length: int) -> bool:
    """Whether each car of a road has driven over empty cells, by its speed, from the cell of a car of the road before."""
    starts = starts_of(after, length)
    if starts is None:
        return False
    for (lane, cell), speed in starts.items():
        passed = [Place(lane, (cell + distance) % length) for distance in range(1, speed + 1)]
        if any(place in starts for place in passed):
            return False
    # The car may have been on the other lane.
    return sorted(start.cell for start in starts) == sorted(place.cell for place in cars_of(before))


def is_lane(line: bytes, job: Job) -> bool:
    """Whether a line has the length of a lane of a job, and cars up to its limit."""
    return len(line) == len(job.lanes[0]) and not line.strip(bytes([EMPTY]) + SPEEDS[:job.limit + 1])


def is_run(job: Job, status: Status, output: bytes) -> bool:
    """Whether an output is that of a job: a snapshot of each step, each of which follows from the one before."""
    lines = output.split(b"\n")
    lines_per_step = 1 + len(job.lanes)
    if status != trlab.DONE or lines.pop() != b"" or len(lines) != lines_per_step * (job.steps + 1):
        return False
    lanes_before = job.lanes
    for step in range(job.steps + 1):
        title, *lanes = lines[lines_per_step * step:lines_per_step * (step + 1)]
        if title != b"step %d" % step or not all(is_lane(lane, job) for lane in lanes):
            return False
        is_right = follows(lanes_before, lanes, len(job.lanes[0])) if step > 0 else lanes == job.lanes
        if not is_right:
            return False
        lanes_before = lanes
    return True


def is_point(sweep: Sweep, cars: int, line: bytes) -> bool:
    """Whether a line of a table is possible for this number of cars."""
    if not ROW.fullmatch(line):
        return False
    *settings, distance, stopped, changes, flow = (int(word) for word in line.split(b","))
    expected_flow = distance * MILLION // (sweep.cells * sweep.measure)
    car_steps = cars * sweep.measure
    return settings == [cars, sweep.cells, sweep.measure] and flow == expected_flow and max(stopped, changes) <= car_steps


def is_table(sweep: Sweep, status: Status, output: bytes) -> bool:
    """Whether an output is a table of the points of a sweep."""
    if status != trlab.DONE or not output.startswith(HEADING) or not output.endswith(b"\n"):
        return False
    lines = output.split(b"\n")[1:-1]
    return len(lines) == len(sweep.cars) and all(is_point(sweep, cars, line) for cars, line in zip(sweep.cars, lines))


def expectation(command: str, text: bytes) -> Expectation:
    """A test of the exit status and output of a command for an input, and the job, sweep, check or fault of the input."""
    try:
        if command == "check":
            check = read_check(text)
            return Expectation(functools.partial(is_check, check), check)
        if command == "run":
            job = read_job(text, verdict)
            return Expectation(functools.partial(is_run, job), job)
        sweep = read_sweep(text, verdict)
        return Expectation(functools.partial(is_table, sweep), sweep)
    except Fault as fault:
        refusal = trlab.REJECTED, fault_line(fault)
        return Expectation(lambda status, output: (status, output) == refusal, fault)
