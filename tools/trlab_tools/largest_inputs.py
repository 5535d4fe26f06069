"""The largest inputs of each kind, whose memory tools/load measures."""
import itertools
import string
from collections.abc import Iterator
from typing import NamedTuple

from . import program, worked
from .oracle.reader import LONGEST_TEXT, MAX_CELLS, MAX_STEPS

START_OF_JOB = "road 1\n" + worked.KEY + "limit 35\n"
START_OF_SWEEP = "sweep 1\n" + worked.KEY + "limit 5\n"
SMALL_SWEEP = START_OF_SWEEP + "length 10\nlanes 1\n"
# A job with a short road up to its first program, and the lines after a program.
PROGRAM_OF_JOB = START_OF_JOB + "lane .\nrule own\n"
END_OF_JOB = "end\nsteps 0\n"
END_OF_SWEEP = "end\nwarm 0\nmeasure 9\n" + 200 * "cars 9\n"
# The end of a motion program whose cars stop.
STOPPING = "num r0, 0\ngo r0\n"
# The rules of most runs: probabilities are in multiples of 1 / 2**31.
BRAKING = "rule nasch 536870912"
CHANGING = "rule rickert 536870912 1073741824"
# A rule whose cars change lanes whenever the side cell is empty.
CROSSING = (
    "rule own\nmotion\nget r0, speed\nget r1, gap\nmin r0, r0, r1\ngo r0\nend\n"
    "change\nside r0\njfalse r0, keep\ncross\nkeep: stay\nend"
)
EMPTY_LANE, FULL_LANE = (f"lane {MAX_CELLS * cell}\n" for cell in (".", "0"))
# A lane of the maximum length with 30,000 cars.
BUSY_LANE = "lane " + MAX_CELLS // 10 * "0..0...0.." + "\n"
ONE_CAR = "lane 0" + 9 * "." + "\n"


class Run(NamedTuple):
    """A run of the program: its name, its arguments, its input, and the status with which it has to end."""

    name: str
    words: list[str]
    text: str
    status: int = program.DONE


def runs_with(option: str, name: str, command: str, text: str) -> list[Run]:
    """Runs of a command with one, four and sixteen workers or runners."""
    return [Run(name if number == 1 else "the same", [command, option, str(number)], text) for number in (1, 4, 16)]


def job(lanes: str, rule: str, steps: int) -> str:
    return f"{START_OF_JOB}{lanes}{rule}\nsteps {steps}\n"


def sweep(cars: int, warm: int, measure: int, points: int, rule: str = BRAKING) -> str:
    """A sweep of equal points on two lanes of the maximum length."""
    lines = f"length {MAX_CELLS}\nlanes 2\n{rule}\nwarm {warm}\nmeasure {measure}\n"
    return START_OF_SWEEP + lines + points * f"cars {cars}\n"


def filled(front: str, line: str, end: str = "") -> str:
    """An input of the maximum length: a prefix, a line as often as it fits, and an end."""
    count = (LONGEST_TEXT - len(front) - len(end)) // len(line)
    return front + count * line + end


def all_labels() -> Iterator[str]:
    """The lines of labels, the shortest first."""
    letters = string.ascii_letters + "_"
    for length in itertools.count():
        for first, *others in itertools.product(letters, *length * [letters + string.digits]):
            yield first + "".join(others) + ":\n"


def filled_with_labels(front: str, end: str = "") -> str:
    """An input of nearly the maximum length: a prefix, a motion program with as many labels as fit, and an end."""
    front, end = front + "motion\n", STOPPING + end
    lines, length = [], len(front) + len(end)
    for line in all_labels():
        length += len(line)
        if length > LONGEST_TEXT:
            break
        lines.append(line)
    return front + "".join(lines) + end


def meeting_jumps() -> str:
    """A program of 128 instructions, nearly half of them jumps, each with two paths that meet again."""
    lines = ["notes motion", "num r0, 0"]
    for _ in range(63):
        lines += ["draw r1, 0, 1073741824", f"jtrue r1, @{len(lines) + 1}"]
    return "\n".join([*lines, "go r0"]) + "\n"


def far_jumps() -> str:
    """A program in which almost each instruction is a jump to the end, so that many notes meet there."""
    return "motion\nget r0, speed\nget r1, gap\nmin r0, r0, r1\n" + 124 * "jle r0, r1, @127\n" + "go r0\n"


def later_rules() -> str:
    """A job with the most later rules, each of which is a program."""
    code = "code 54524c4201000200" + "0101000000000000" + "1401000000000000"
    rules = "".join(f"at {step} rule own\n{code}\n" for step in range(1, 1024))
    return job("lane 0.........\n", "rule nasch 0", 1024) + rules


def largest_texts() -> Iterator[Run]:
    """Inputs of the maximum length."""
    yield Run("a comment of 4 MiB", ["check"], ("motion\n" + STOPPING + ";").ljust(LONGEST_TEXT, "x"))
    yield Run("4 MiB of empty lines", ["check"], ("motion\n" + STOPPING).ljust(LONGEST_TEXT, "\n"))
    yield Run("4 MiB of the shortest labels", ["check"], filled_with_labels(""))
    yield Run("4 MiB, one byte more", ["check"], "x" * (LONGEST_TEXT + 1), program.REJECTED)
    yield Run("4 MiB in a lane of a job", ["run"], filled(START_OF_JOB + "lane ", "."), program.REJECTED)
    long_program = filled(PROGRAM_OF_JOB + "motion\n", "\n", STOPPING + END_OF_JOB)
    yield Run("4 MiB in a program of a job", ["run"], long_program)
    yield Run("the same explained", ["explain"], long_program)
    labels_in_job = filled_with_labels(PROGRAM_OF_JOB, END_OF_JOB)
    yield from runs_with("--workers", "the shortest labels in a job", "run", labels_in_job)
    labels_in_sweep = filled_with_labels(SMALL_SWEEP + "rule own\n", END_OF_SWEEP)
    yield from runs_with("--runners", "the shortest labels in a sweep", "sweep", labels_in_sweep)


def largest_programs() -> Iterator[Run]:
    """Programs and rules whose notes take the most memory."""
    yield Run("128 instructions, 63 jumps that meet", ["check"], meeting_jumps())
    yield Run("128 instructions, 124 jumps to the end", ["check"], far_jumps())
    yield Run("1023 later rules", ["run"], later_rules())


def largest_roads() -> Iterator[Run]:
    """Jobs with the most steps, and with the largest roads."""
    long_job = job(ONE_CAR, BRAKING, MAX_STEPS)
    yield Run("500000 steps of one car", ["run"], long_job)
    yield from runs_with("--workers", "30 steps of a full lane", "run", job(FULL_LANE, BRAKING, 30))
    yield from runs_with("--workers", "30 steps of two full lanes", "run", job(2 * FULL_LANE, CHANGING, 30))
    crossing = job(FULL_LANE + EMPTY_LANE, CROSSING, 30)
    yield from runs_with("--workers", "30 steps of a full lane whose cars all cross", "run", crossing)
    busy_job = job(2 * BUSY_LANE, CHANGING, 1000)
    yield from runs_with("--workers", "1000 steps of two lanes, 200000 cells, 60000 cars", "run", busy_job)
    yield Run("the same in windows of 100 steps", ["series", "--every", "100"], busy_job)
    yield Run("500000 windows of one car", ["series"], long_job)


def largest_sweeps() -> Iterator[Run]:
    """Sweeps with the most points, cars and steps."""
    yield from runs_with("--runners", "200 points of 200000 cars, 1 step each", "sweep", sweep(200000, 0, 1, 200))
    crossing = sweep(100000, 0, 3, 20, CROSSING)
    yield from runs_with("--runners", "20 points of 100000 cars that all cross, 3 steps each", "sweep", crossing)
    yield Run("200 points of 60000 cars, 5 steps each", ["sweep", "--runners", "4"], sweep(60000, 2, 3, 200))
    one_car = SMALL_SWEEP + f"rule nasch 0\nwarm 0\nmeasure {MAX_STEPS}\ncars 1\n"
    yield Run("500000 steps of a sweep of one car", ["sweep"], one_car)


def largest_inputs() -> Iterator[Run]:
    """All runs that tools/load measures."""
    yield from largest_texts()
    yield from largest_programs()
    yield from largest_roads()
    yield from largest_sweeps()
