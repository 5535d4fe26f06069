"""Random inputs near the grammar of jobs, sweeps and checks, and random bytes, each from its own seed.

An input is made from pieces of the grammar and of the examples, with small roads and few steps, and often damaged in its
bytes, words or lines. An input that would take long to run is drawn again.

A choice with weights, such as three in four, is a choice from a list in which some items are repeated."""
import random
from collections.abc import Iterator, Sequence
from typing import NamedTuple

from ..worked import examples
from .outputs import Expectation, expectation
from .programs import (
    DIVISOR, FORMS, INPUT, INPUTS, KINDS, NUMBER, PROBABILITY, RANDOM_WORD, REGISTERS, TARGET, Form, Instruction, encode,
    operand_text,
)
from .reader import SPEEDS, Job, Sweep

MAX_CELLS_OF_RUN = 120000  # of all snapshots together
MAX_CELLS_OF_SWEEP = 60000  # of all steps together
WIDE = 400  # one in 400 jobs has a road that several workers share
# Numbers and bytes at the bounds of their ranges, and probabilities in multiples of 1 / 2**31.
NUMBERS = (0, 1, 2, 3, 5, 7, 9, 35, 36, 100, 99999, 2147483648, 2147483649, 4294967295, 4294967296)
BOUNDS_OF_FIELDS = (0, 1, 2, 6, 7, 8, 15, 22, 23, 255)
PROBABILITIES = (0, 1, 214748365, 536870912, 1073741824, 2147483648)
# Bytes that inputs often have, and one that none has.
USUAL_BYTES = b"\n\0 .09azr,;:@-\xff"
# Bytes, words and lines that are wrong in most places.
WRONG_BYTES = (b"\n", b"\r", b" ", b"\0", b".", b"9", b"\xff", b"\t", b",", b";", b":", b"@", b"a", b"0", b"-", b"end\n")
WRONG_WORDS = (b"", b"r7", b"r8", b"x", b"@3", b"01", b"-1")
WRONG_LINES = (
    b"", b"end", b"motion", b"change", b"lane ..", b"rule nasch 0", b"steps 1", b"at 0 rule nasch 0", b"cars 1", b"code 54524c42",
    b"rule own", b"road 1", b"sweep 1", b" ", b"; end",
)
# Instructions that a motion program must not have, or that need facts about their operands.
RISKY = ("side", "cross", "stay", "go", "sub", "add", "mul", "and", "or", "not")
MAX_BODY = 100  # of a careful program, which has some instructions more and may have 128


class Dice(random.Random):
    """The random choices for an input."""

    def happens(self, probability: float) -> bool:
        """Whether an event of this probability happens."""
        return self.random() < probability


def example_lines() -> list[bytes]:
    """The lines of all examples, except very long ones."""
    return [line for _, _, text in examples() for line in text.split(b"\n") if len(line) < 200]


def example_programs() -> Iterator[tuple[str, list[bytes]]]:
    """The kind and the lines of each program of the examples."""
    for _, command, text in examples():
        if command == "check":
            kind, *lines = text.rstrip(b"\n").split(b"\n")
            yield kind.decode(), lines


EXAMPLE_LINES = example_lines()
EXAMPLE_PROGRAMS = list(example_programs())


def operand(dice: Dice, form: Form, place: int, count: int) -> int:
    """An operand of the instruction at a place in a program of `count` instructions, usually a useful one."""
    if form in REGISTERS:
        return dice.randrange(4)
    if form is INPUT:
        return dice.choice((0, 1, 2, 2, 3, 4, 5, 6))
    if form is RANDOM_WORD:
        return dice.randrange(16)
    if form is PROBABILITY:
        return dice.choice(PROBABILITIES)
    if form is TARGET:
        may_be_outside = dice.happens(0.1)
        return dice.randrange(place, count + 1) if may_be_outside else dice.randrange(place + 1, max(place + 2, count))
    return dice.choice((1, 2, 3, 5, 100, 4294967295))


def random_program(dice: Dice, kind: str) -> list[Instruction]:
    """Instructions that are in range, and seldom accepted together."""
    count = dice.choice((1, 2, 3, 5, 8, 13, 128))
    ends = ["go"] if kind == "motion" else ["cross", "stay"]
    names = [dice.choice(list(FORMS)) for _ in range(count - 1)] + [dice.choice(ends)]
    return [
        Instruction(name, tuple(operand(dice, form, place, count) for form in FORMS[name]))
        for place, name in enumerate(names)
    ]


def get(register: int, name: str) -> Instruction:
    """The instruction that writes an input into a register."""
    return Instruction("get", (register, INPUTS.index(name)))


def careful_program(dice: Dice) -> list[Instruction]:
    """A motion program that is usually accepted, because the speed is at most the gap and the limit at the end."""
    instructions = random_program(dice, "motion")[:-1]
    body = [line for line in instructions if not line.name.startswith("j") and line.name not in RISKY]
    front = [get(0, "speed"), get(1, "limit"), get(2, "gap"), get(3, "speed")]
    speed = Instruction("num", (7, dice.choice((0, 1, 3))))
    bounds = [get(5, "limit"), get(6, "gap"), Instruction("min", (7, 7, 5)), Instruction("min", (7, 7, 6))]
    return [*front, *body[:MAX_BODY], speed, *bounds, Instruction("go", (7,))]


def operand_word(dice: Dice, form: Form, number: int) -> str:
    """An operand as people write it."""
    may_have_zeros = form in (NUMBER, DIVISOR, PROBABILITY, RANDOM_WORD)
    zeros = dice.choice(("", "", "", "0")) if may_have_zeros else ""
    # The canonical text has `@` before a target outside the program, and people may write it before any target.
    return zeros + operand_text(form, number, count=0)


def instruction_line(dice: Dice, name: str, operands: Sequence[int]) -> bytes:
    """An instruction as people write it, some with spaces and comments."""
    comma = dice.choice((", ", ",", " ,\t"))
    words = comma.join(operand_word(dice, form, number) for form, number in zip(FORMS[name], operands))
    indent = dice.choice(("", "", "\t"))
    comment = dice.choice(("", "", "", " ", " ; end", "\t;"))
    return f"{indent}{name}{' ' if words else ''}{words}{comment}".encode()


def program_lines(dice: Dice, kind: str) -> list[bytes]:
    """The lines of a program of a kind: one of the examples, one that is usually accepted, or a random one."""
    choice = dice.random()
    if choice < 0.5:
        of_kind = [lines for kind_of_lines, lines in EXAMPLE_PROGRAMS if kind_of_lines == kind]
        return list(dice.choice(of_kind or [[b"stay"]]))
    program = careful_program(dice) if kind == "motion" and choice < 0.8 else random_program(dice, kind)
    return [instruction_line(dice, name, operands) for name, operands in program]


def code_line(dice: Dice, kind: str) -> bytes:
    """A line of code with a program, sometimes with a byte replaced or inserted, or with two bytes replaced by one."""
    program = careful_program(dice) if kind == "motion" and dice.happens(0.6) else random_program(dice, kind)
    code = encode(kind, program)
    if dice.happens(0.25):
        place, wrong_byte = dice.randrange(min(len(code), 40)), bytes([dice.choice(BOUNDS_OF_FIELDS)])
        code = code[:place] + wrong_byte + code[place + dice.randrange(3):]
    digits = code.hex()
    return b"code " + (digits if dice.happens(0.5) else digits.upper()).encode()


def program_of_rule(dice: Dice, kind: str) -> list[bytes]:
    """A program of a job, in lines or as a line of code."""
    if dice.happens(0.4):
        return [code_line(dice, kind)]
    return [kind.encode(), *program_lines(dice, kind), b"end"]


def rule_lines(dice: Dice, lanes: int) -> list[bytes]:
    """A rule, with its programs if it is `rule own`."""
    name = dice.choice(("nasch", "vdr", "rickert", "own", "nasch"))
    if name == "own":
        lines = [b"rule own", *program_of_rule(dice, "motion")]
        return lines + (program_of_rule(dice, "change") if lanes == 2 and dice.happens(0.7) else [])
    if name == "rickert" and lanes == 1 and dice.happens(0.9):
        name = "vdr"
    numbers = [dice.choice(PROBABILITIES) for _ in range(1 if name == "nasch" else 2)]
    return [" ".join(["rule", name, *map(str, numbers)]).encode()]


def key_line(dice: random.Random) -> bytes:
    """A line `key`."""
    return b"key " + ("%064x" % dice.getrandbits(256) if dice.random() < 0.5 else 64 * "0").encode()


def lane_line(dice: random.Random, length: int, limit: int, density: float) -> bytes:
    """A line `lane` with random cars."""
    speeds = SPEEDS[:limit + 1].decode()
    cells = [dice.choice(speeds) if dice.random() < density else "." for _ in range(length)]
    return b"lane " + "".join(cells).encode()


def later_rules(dice: Dice, lanes: int, steps: int) -> list[bytes]:
    """The `at` lines of a job, usually none."""
    count = dice.choice((0, 0, 0, 1, min(steps, 3))) if steps else 0
    lines = []
    for step in sorted(dice.sample(range(steps), count)):
        first, *programs = rule_lines(dice, lanes)
        lines += [b"at %d " % step + first, *programs]
    return lines


def job(dice: Dice) -> list[bytes]:
    """The lines of a job."""
    is_wide = dice.randrange(WIDE) == 0
    lanes, limit = dice.choice((1, 1, 2)), dice.choice((1, 2, 5, 5, 9, 20, 35))
    length = 20000 if is_wide else dice.choice((1, 2, 3, 5, 10, 20, 40))
    steps = 1 if is_wide else dice.choice((0, 1, 2, 5, 10))
    density = 0.9 if is_wide else dice.choice((0, 0.1, 0.3, 0.3, 0.6, 1))
    return [
        b"road 1",
        key_line(dice),
        b"limit %d" % limit,
        *(lane_line(dice, length, limit, density) for _ in range(lanes)),
        *rule_lines(dice, lanes),
        b"steps %d" % steps,
        *later_rules(dice, lanes, steps),
    ]


def sweep(dice: Dice) -> list[bytes]:
    """The lines of a sweep."""
    lanes, length = dice.choice((1, 1, 2)), dice.choice((1, 2, 5, 10, 40))
    return [
        b"sweep 1",
        key_line(dice),
        b"limit %d" % dice.choice((1, 5, 9, 35)),
        b"length %d" % length,
        b"lanes %d" % lanes,
        *rule_lines(dice, lanes),
        b"warm %d" % dice.choice((0, 1, 5)),
        b"measure %d" % dice.choice((1, 2, 10)),
        *(b"cars %d" % dice.randrange(lanes * length + 1) for _ in range(dice.choice((1, 2, 4, 20)))),
    ]


def check(dice: Dice) -> list[bytes]:
    """The lines of a check."""
    kind = dice.choice(KINDS)
    first, *others = [code_line(dice, kind)] if dice.happens(0.4) else [kind.encode(), *program_lines(dice, kind)]
    return [dice.choice((b"", b"", b"notes ")) + first, *others]


def delete_line(dice: Dice, lines: list[bytes], place: int) -> None:
    del lines[place]


def double_line(dice: Dice, lines: list[bytes], place: int) -> None:
    lines.insert(place, lines[place])


def exchange_lines(dice: Dice, lines: list[bytes], place: int) -> None:
    other = dice.randrange(len(lines))
    lines[place], lines[other] = lines[other], lines[place]


def other_line(dice: Dice) -> bytes:
    """A line of another input."""
    return dice.choice(EXAMPLE_LINES if dice.happens(0.5) else WRONG_LINES)


def insert_line(dice: Dice, lines: list[bytes], place: int) -> None:
    lines.insert(place, other_line(dice))


def replace_line(dice: Dice, lines: list[bytes], place: int) -> None:
    lines[place] = other_line(dice)


DAMAGES_OF_LINES = (delete_line, double_line, exchange_lines, insert_line, replace_line)


def with_damaged_line(dice: Dice, lines: list[bytes]) -> list[bytes]:
    """The lines with one of them deleted, doubled, exchanged, or replaced with a line of another input, which may also be
    inserted."""
    damaged, place = list(lines), dice.randrange(len(lines))
    damage = dice.choice(DAMAGES_OF_LINES)
    damage(dice, damaged, place)
    return damaged or [b""]


def with_damaged_word(dice: Dice, lines: list[bytes]) -> list[bytes]:
    """The lines with a word of one of them replaced."""
    place = dice.randrange(len(lines))
    words = lines[place].split(b" ")
    word = str(dice.choice(NUMBERS)).encode() if dice.happens(0.7) else dice.choice(WRONG_WORDS)
    words[dice.randrange(len(words))] = word
    return [*lines[:place], b" ".join(words), *lines[place + 1:]]


def with_damaged_bytes(dice: Dice, text: bytes) -> bytes:
    """The input with a few bytes replaced or inserted, and sometimes cut off."""
    for _ in range(dice.choice((1, 1, 2, 5))):
        place = dice.randrange(len(text) + 1)
        text = text[:place] + dice.choice(WRONG_BYTES) + text[place + dice.randrange(2):]
    return text[:dice.randrange(len(text) + 1)] if dice.happens(0.2) else text


def random_bytes(dice: Dice) -> bytes:
    """Random bytes, some of which begin like an input."""
    count = dice.choice((0, 1, 10, 100, 1000))
    has_usual_bytes = dice.happens(0.5)
    text = bytes(dice.choice(USUAL_BYTES) for _ in range(count)) if has_usual_bytes else dice.randbytes(count)
    return dice.choice((b"", b"road 1\n", b"sweep 1\n", b"motion\n", b"code ", b"notes change\n")) + text


# The commands, and the functions that make the lines of their inputs.
KINDS_OF_INPUTS = (("run", job), ("run", job), ("sweep", sweep), ("check", check))


def random_input(dice: Dice) -> tuple[str, bytes]:
    """A command, and an input that is close to the inputs that it accepts: as it is, or with damaged lines and words, with
    damaged bytes, or with both."""
    command, lines_of = dice.choice(KINDS_OF_INPUTS)
    if dice.happens(0.1):
        return command, random_bytes(dice)
    lines, damage = lines_of(dice), dice.random()
    # One in three is not damaged, and one in ten is damaged in both ways.
    has_damaged_lines, has_damaged_bytes = 0.35 < damage < 0.8, damage > 0.7
    for _ in range(dice.choice((1, 1, 2)) if has_damaged_lines else 0):
        lines = with_damaged_line(dice, lines) if dice.happens(0.5) else with_damaged_word(dice, lines)
    text = b"\n".join(lines) + dice.choice((b"\n", b"\n", b""))
    return command, with_damaged_bytes(dice, text) if has_damaged_bytes else text


def is_small(meaning: object) -> bool:
    """Whether an input takes little work, by its meaning: a job, a sweep, a check or a fault."""
    if isinstance(meaning, Job):
        return (meaning.steps + 1) * len(meaning.lanes) * len(meaning.lanes[0]) <= MAX_CELLS_OF_RUN
    if isinstance(meaning, Sweep):
        return len(meaning.cars) * meaning.steps * meaning.cells <= MAX_CELLS_OF_SWEEP
    return True


class SmallInput(NamedTuple):
    """An input that takes little work, with its command, and what is expected of it."""

    command: str
    text: bytes
    expected: Expectation


def small_input(seed: int, number: int) -> SmallInput:
    """The input with this number."""
    dice = Dice(f"{seed} {number}")
    while True:
        command, text = random_input(dice)
        expected = expectation(command, text)
        if is_small(expected.meaning):
            return SmallInput(command, text, expected)
