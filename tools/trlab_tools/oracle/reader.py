"""A second reader: jobs, sweeps and checks are read as docs/FILES.md describes them.

It is written from the documents and not from the proved program, so that the two can be compared. It returns a Job, a
Sweep or a Check, and raises the first fault of an input as a Fault. There is no second verifier: the caller passes a
function `verdict`, which returns the reason for which a program is rejected, or None."""
import re
from collections.abc import Callable
from typing import NamedTuple, NoReturn, Optional

from .programs import CERTAIN, Cause, Fault, Instruction, assemble, decode

# The reason for which a program of a kind is rejected, or None.
Judge = Callable[[str, list[Instruction]], Optional[int]]

LONGEST_TEXT = 4194304
MAX_CELLS, MAX_LANES = 100000, 2  # of a lane, and of a road
MAX_STEPS = 500000
GREATEST_LIMIT = 35
GREATEST_STEP = 9999999999  # of a line `at`: all numbers of ten digits can be read
MAX_LATER_RULES = 1023
MAX_POINTS = 200
# A number without leading zeros, of at most ten digits.
NUMBER = re.compile(rb"0|[1-9][0-9]{0,9}")
HEX = re.compile(rb"[0-9A-Fa-f]*")
# The characters of cells: a car by its speed, and an empty cell.
SPEEDS = b"0123456789abcdefghijklmnopqrstuvwxyz"
EMPTY = ord(".")
PROBABILITIES_OF_RULE = {b"nasch": 1, b"vdr": 2, b"rickert": 2, b"own": 0}


class Job(NamedTuple):
    """The lanes of a road at the start, its limit and its number of steps."""

    lanes: list[bytes]
    limit: int
    steps: int


class Sweep(NamedTuple):
    """The cells of a road, its steps, those that are counted, and the cars of each point."""

    cells: int
    steps: int
    measure: int
    cars: list[int]


class Check(NamedTuple):
    """A program, its kind, and whether its notes are printed."""

    kind: str
    program: list[Instruction]
    notes: bool


def accept_all(kind: str, program: list[Instruction]) -> None:
    """The judge that rejects no program: for programs that need not be accepted, or are accepted already."""


def lines_of(text: bytes) -> list[bytes]:
    """The lines of an input. After the last LF there is a line only if it is not empty."""
    lines = text.split(b"\n")
    return lines[:-1] if lines[-1] == b"" else lines


class Lines:
    """The lines of an input, which are read one after the other, the number of the current one, and the judge of programs.

    A method whose name begins with `read` reads the current line, so that the next one becomes the current one. Each method raises
    a fault of the current line if it has another form."""

    def __init__(self, text: bytes, verdict: Judge) -> None:
        if len(text) > LONGEST_TEXT:
            raise Fault(0, Cause.TOO_LARGE)
        self.lines, self.number, self.verdict = lines_of(text), 1, verdict

    def is_end(self) -> bool:
        """Whether all lines have been read."""
        return self.number > len(self.lines)

    def fail(self, cause: int) -> NoReturn:
        """Raise a fault of the current line."""
        raise Fault(self.number, cause)

    def advance(self) -> None:
        """Make the next line the current one."""
        self.number += 1

    def current(self) -> bytes:
        """The current line. That there is none is a fault, too."""
        if self.is_end():
            self.fail(Cause.UNEXPECTED_LINE)
        return self.lines[self.number - 1]

    def first_word(self) -> Optional[bytes]:
        """The first word of the current line; None at the end of the input."""
        return None if self.is_end() else self.current().split(b" ")[0]

    def words(self) -> list[bytes]:
        """The words of the current line, which single spaces separate."""
        words = self.current().split(b" ")
        if b"" in words:
            self.fail(Cause.UNEXPECTED_LINE)
        return words

    def word_after(self, name: bytes) -> bytes:
        """The second of the two words of the current line, of which the first is this name."""
        words = self.words()
        if len(words) != 2 or words[0] != name:
            self.fail(Cause.UNEXPECTED_LINE)
        return words[1]

    def number_in(self, word: bytes, minimum: int, maximum: int) -> int:
        """The number that a word of the current line is."""
        if not NUMBER.fullmatch(word) or not minimum <= int(word) <= maximum:
            self.fail(Cause.NUMBER)
        return int(word)

    def bytes_in(self, word: bytes) -> bytes:
        """The bytes that a word of the current line has in hexadecimal digits."""
        if len(word) % 2 or not HEX.fullmatch(word):
            self.fail(Cause.HEXADECIMAL)
        return bytes.fromhex(word.decode())

    def read_exactly(self, line: bytes) -> None:
        """Read this line."""
        if self.current() != line:
            self.fail(Cause.UNEXPECTED_LINE)
        self.advance()

    def read_number(self, name: bytes, minimum: int, maximum: int) -> int:
        """Read a line with this name and a number, and return the number."""
        number = self.number_in(self.word_after(name), minimum, maximum)
        self.advance()
        return number

    def read_key(self) -> bytes:
        """Read the line `key`, and return its 32 bytes."""
        word = self.word_after(b"key")
        if len(word) != 64 or not HEX.fullmatch(word):
            self.fail(Cause.KEY)
        self.advance()
        return bytes.fromhex(word.decode())


def read_lines_of_program(lines: Lines) -> list[bytes]:
    """Read a program from its heading on up to the line `end`, which is then the current one. The lines between both are returned."""
    lines.advance()
    lines_of_program = []
    while lines.current() != b"end":
        lines_of_program.append(lines.current())
        lines.advance()
    return lines_of_program


def read_program(lines: Lines, kind: str, is_allowed: bool = True) -> None:
    """Read and judge a program of this kind: lines up to `end`, or a line of code. A change program is not allowed on a road
    of one lane."""
    first, words = lines.number, lines.words()
    actual_kind: str
    if words == [kind.encode()]:
        lines_of_program = read_lines_of_program(lines)
        if not is_allowed:
            raise Fault(first, Cause.ONE_LANE)
        actual_kind, program = kind, assemble(lines_of_program, first)
    elif len(words) == 2 and words[0] == b"code":
        code = lines.bytes_in(words[1])
        if not is_allowed:
            raise Fault(first, Cause.ONE_LANE)
        actual_kind, program = decode(code, first)
    else:
        lines.fail(Cause.UNEXPECTED_LINE)
    if actual_kind != kind:
        lines.fail(Cause.OTHER_KIND)
    reason = lines.verdict(kind, program)
    if reason is not None:
        raise Fault(first, Cause.REJECTED_PROGRAM + reason)
    lines.advance()


class RuleWords(NamedTuple):
    """The words of a rule: its name and its probabilities."""

    name: bytes
    probabilities: list[bytes]


def rule_words(lines: Lines, words: list[bytes]) -> RuleWords:
    """The rule that ends the current line. Its probabilities may be out of range."""
    if len(words) < 2 or words[0] != b"rule":
        lines.fail(Cause.UNEXPECTED_LINE)
    rule = RuleWords(words[1], words[2:])
    if len(rule.probabilities) != PROBABILITIES_OF_RULE.get(rule.name):
        lines.fail(Cause.UNEXPECTED_LINE)
    return rule


def check_probabilities(lines: Lines, rule: RuleWords) -> None:
    """Judge the probabilities of a rule on the current line."""
    for probability in rule.probabilities:
        lines.number_in(probability, 0, CERTAIN)


def finish_rule(lines: Lines, rule: RuleWords, lanes: int) -> None:
    """Judge whether the road may have a rule, and read its programs."""
    if rule.name == b"rickert" and lanes == 1:
        lines.fail(Cause.ONE_LANE)
    lines.advance()
    if rule.name == b"own":
        read_program(lines, "motion")
        if lines.first_word() in (b"change", b"code"):
            read_program(lines, "change", is_allowed=lanes == 2)


def read_first_rule(lines: Lines, lanes: int) -> None:
    """Read the rule of a job or a sweep."""
    rule = rule_words(lines, lines.words())
    check_probabilities(lines, rule)
    finish_rule(lines, rule, lanes)


def read_later_rules(lines: Lines, steps: int, lanes: int) -> None:
    """Read the `at` lines, up to the end of the input."""
    last_step, count = -1, 0
    while not lines.is_end():
        words = lines.words()
        if words[0] != b"at" or len(words) < 3:
            lines.fail(Cause.UNEXPECTED_LINE)
        rule = rule_words(lines, words[2:])
        step = lines.number_in(words[1], 0, GREATEST_STEP)
        check_probabilities(lines, rule)
        count += 1
        if count > MAX_LATER_RULES:
            lines.fail(Cause.TOO_MANY_LINES)
        if not last_step < step < steps:
            lines.fail(Cause.ORDER_OF_STEPS)
        finish_rule(lines, rule, lanes)
        last_step = step


def read_lanes(lines: Lines, limit: int) -> list[bytes]:
    """Read one or two lanes, and judge them together."""
    lanes: list[bytes] = []
    numbers: list[int] = []
    while not lanes or len(lanes) < MAX_LANES and lines.first_word() == b"lane":
        lanes.append(lines.word_after(b"lane"))
        numbers.append(lines.number)
        lines.advance()
    if len({len(lane) for lane in lanes}) > 1 or len(lanes[0]) > MAX_CELLS:
        raise Fault(numbers[-1], Cause.LANE_LENGTH)
    for number, lane in zip(numbers, lanes):
        check_cells(lane, number, limit)
    return lanes


def check_cells(lane: bytes, number: int, limit: int) -> None:
    """Judge the cells of a lane on the line with this number."""
    for cell in lane:
        if cell != EMPTY and cell not in SPEEDS:
            raise Fault(number, Cause.LANE_CHARACTER)
        if cell != EMPTY and SPEEDS.index(cell) > limit:
            raise Fault(number, Cause.CAR_TOO_FAST)


def read_job(text: bytes, verdict: Judge) -> Job:
    """The job of an input."""
    lines = Lines(text, verdict)
    lines.read_exactly(b"road 1")
    lines.read_key()
    limit = lines.read_number(b"limit", 1, GREATEST_LIMIT)
    lanes = read_lanes(lines, limit)
    read_first_rule(lines, len(lanes))
    steps = lines.read_number(b"steps", 0, MAX_STEPS)
    read_later_rules(lines, steps, len(lanes))
    return Job(lanes, limit, steps)


def read_sweep(text: bytes, verdict: Judge) -> Sweep:
    """The sweep of an input."""
    lines = Lines(text, verdict)
    lines.read_exactly(b"sweep 1")
    lines.read_key()
    lines.read_number(b"limit", 1, GREATEST_LIMIT)
    length = lines.read_number(b"length", 1, MAX_CELLS)
    lanes = lines.read_number(b"lanes", 1, MAX_LANES)
    read_first_rule(lines, lanes)
    warm = lines.read_number(b"warm", 0, MAX_STEPS)
    measure = lines.read_number(b"measure", 1, MAX_STEPS)
    cars = read_points(lines, lanes * length, warm + measure)
    return Sweep(lanes * length, warm + measure, measure, cars)


def read_points(lines: Lines, cells: int, steps: int) -> list[int]:
    """Read the number of cars of each point, up to the end of the input."""
    cars: list[int] = []
    while not cars or not lines.is_end():
        cars.append(lines.number_in(lines.word_after(b"cars"), 0, MAX_LANES * MAX_CELLS))
        if len(cars) > MAX_POINTS:
            lines.fail(Cause.TOO_MANY_LINES)
        if cars[-1] > cells:
            lines.fail(Cause.TOO_MANY_CARS)
        if len(cars) * steps > MAX_STEPS:
            lines.fail(Cause.TOO_MUCH_WORK)
        lines.advance()
    return cars


def read_check(text: bytes) -> Check:
    """The check of an input. Its program is not judged."""
    lines = Lines(text, accept_all)
    notes = lines.current().startswith(b"notes ")
    heading = lines.current().removeprefix(b"notes ")
    if heading in (b"motion", b"change"):
        return Check(heading.decode(), assemble(lines.lines[1:], 1), notes)
    words = heading.split(b" ")
    if len(words) != 2 or words[0] != b"code" or words[1] == b"":
        lines.fail(Cause.UNEXPECTED_LINE)
    kind, program = decode(lines.bytes_in(words[1]), 1)
    lines.advance()
    if not lines.is_end():
        lines.fail(Cause.UNEXPECTED_LINE)
    return Check(kind, program, notes)
