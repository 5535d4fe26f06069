"""A second assembler: driver programs are read from lines and from bytes, and written in their canonical form.

It is written from docs/PROGRAMS.md and docs/FILES.md and not from the proved program, so that the two can be compared. A
program is a list of instructions."""
import re
from collections.abc import Iterable, Sequence
from enum import Enum, IntEnum
from typing import NamedTuple, NoReturn, Optional, Union

# The operands of an instruction whose labels are still names.
UnresolvedOperands = list[Union[bytes, int]]

MAX_INSTRUCTIONS = 128
CERTAIN = 2147483648  # the probability 1
GREATEST = 4294967295
KINDS = ("motion", "change")
INPUTS = ("speed", "limit", "gap", "sidegap", "sideback", "lane", "headspeed")
HEADSPEED = INPUTS.index("headspeed")
# In bytes, a program has a heading of eight bytes and then its instructions: the magic bytes, the version, the kind and the
# number of instructions. An instruction has its opcode, three fields of a byte each, and a number of four bytes.
MAGIC = bytes.fromhex("54524c42")
HEADING_SIZE = INSTRUCTION_SIZE = 8
FIELDS = 3
VERSION_WITH_HEADSPEED = 2


class Form(Enum):
    """The form of an operand."""

    RESULT = "a register that is written"
    REGISTER = "a register that is read"
    INPUT = "an input of the car"
    RANDOM_WORD = "the number of a random word"
    PROBABILITY = "a probability in multiples of 1 / 2**31"
    NUMBER = "a number"
    DIVISOR = "a number that is not 0"
    TARGET = "the instruction to which a jump goes"


RESULT, REGISTER, INPUT, RANDOM_WORD = Form.RESULT, Form.REGISTER, Form.INPUT, Form.RANDOM_WORD
PROBABILITY, NUMBER, DIVISOR, TARGET = Form.PROBABILITY, Form.NUMBER, Form.DIVISOR, Form.TARGET
REGISTERS = RESULT, REGISTER
# Operands of these forms are fields of one byte. An operand of another form is the number of the instruction.
IN_FIELDS = RESULT, REGISTER, INPUT, RANDOM_WORD
GREATEST_OF = {RESULT: 7, REGISTER: 7, INPUT: len(INPUTS) - 1, RANDOM_WORD: 15, PROBABILITY: CERTAIN}

# The instructions in the order of their opcodes, which count from 1, and the forms of their operands.
FORMS: dict[str, tuple[Form, ...]] = {
    "num": (RESULT, NUMBER),
    "get": (RESULT, INPUT),
    "side": (RESULT,),
    "draw": (RESULT, RANDOM_WORD, PROBABILITY),
    "copy": (RESULT, REGISTER),
    "add": (RESULT, REGISTER, REGISTER),
    "sub": (RESULT, REGISTER, REGISTER),
    "mul": (RESULT, REGISTER, NUMBER),
    "div": (RESULT, REGISTER, DIVISOR),
    "min": (RESULT, REGISTER, REGISTER),
    "max": (RESULT, REGISTER, REGISTER),
    "not": (RESULT, REGISTER),
    "and": (RESULT, REGISTER, REGISTER),
    "or": (RESULT, REGISTER, REGISTER),
    "jump": (TARGET,),
    "jlt": (REGISTER, REGISTER, TARGET),
    "jle": (REGISTER, REGISTER, TARGET),
    "jtrue": (REGISTER, TARGET),
    "jfalse": (REGISTER, TARGET),
    "go": (REGISTER,),
    "cross": (),
    "stay": (),
}
NAMES = list(FORMS)
ENDS = ("go", "cross", "stay")
# A label has at most 32 characters.
LABEL = re.compile(rb"[A-Za-z_][A-Za-z0-9_]{0,31}")
DIGITS = re.compile(rb"[0-9]+")
MAX_DIGITS = 10
BLANKS = b" \t"


class Instruction(NamedTuple):
    """The name of an instruction and its operands, which are numbers: that of a target is the place of its instruction."""

    name: str
    operands: tuple[int, ...]


class Unresolved(NamedTuple):
    """An instruction whose labels are still names, and the number of its line."""

    line: int
    name: str
    operands: UnresolvedOperands


class Decoded(NamedTuple):
    """The kind of a program, and its instructions."""

    kind: str
    instructions: list[Instruction]


class Cause(IntEnum):
    """The numbers of the causes that docs/ERRORS.md and docs/VERIFIER.md describe."""

    UNEXPECTED_LINE = 1
    NUMBER = 2
    KEY = 3
    ONE_LANE = 4
    ORDER_OF_STEPS = 5
    TOO_MANY_LINES = 6
    TOO_MUCH_WORK = 7
    HEXADECIMAL = 8
    TOO_LARGE = 9
    UNKNOWN_INSTRUCTION = 11
    OPERANDS = 12
    OPERAND_RANGE = 13
    LABEL_TWICE = 14
    NO_SUCH_LABEL = 15
    TOO_MANY_INSTRUCTIONS = 16
    NO_INSTRUCTIONS = 17
    CUT_CODE = 21
    FIRST_BYTES = 22
    VERSION = 23
    OTHER_KIND = 24
    INSTRUCTION_COUNT = 25
    OPCODE = 26
    FIELD_RANGE = 27
    BYTES_AFTER_CODE = 28
    NEEDLESS_VERSION = 30
    LANE_LENGTH = 32
    LANE_CHARACTER = 34
    CAR_TOO_FAST = 35
    TOO_MANY_CARS = 37
    REJECTED_PROGRAM = 40  # plus the number of the verifier's reason


class Fault(Exception):
    """The first fault of an input: its line, counted from 1, and its cause."""

    def __init__(self, line: int, cause: int) -> None:
        super().__init__(f"line {line} cause {int(cause)}")
        self.line, self.cause = line, int(cause)


def is_label(word: bytes) -> bool:
    """Whether a word has the form of a label."""
    return LABEL.fullmatch(word) is not None


def is_operand(form: Form, word: bytes) -> bool:
    """Whether a word has the form of an operand; its number may be out of range."""
    if form in REGISTERS:
        return re.fullmatch(rb"r[0-7]", word) is not None
    if form is INPUT:
        return word.decode("latin-1") in INPUTS
    if form is TARGET:
        return is_label(word) or word.startswith(b"@") and DIGITS.fullmatch(word[1:]) is not None
    return DIGITS.fullmatch(word) is not None


def is_in_range(form: Form, number: int) -> bool:
    """Whether a number is in the range of operands of this form."""
    return number <= GREATEST_OF.get(form, GREATEST) and not (form is DIVISOR and number == 0)


def number_of(form: Form, word: bytes) -> Optional[int]:
    """The number of an operand of the right form, or None if it is out of range."""
    if form is INPUT:
        return INPUTS.index(word.decode())
    digits = word.lstrip(b"r@")
    if len(digits) > MAX_DIGITS or not is_in_range(form, int(digits)):
        return None
    return int(digits)


def read_operands(forms: Sequence[Form], text: bytes, line: int) -> UnresolvedOperands:
    """The operands of an instruction; a target that is a label is still its name."""
    words = [word.strip(BLANKS) for word in text.split(b",")] if text else []
    if len(words) != len(forms) or not all(map(is_operand, forms, words)):
        raise Fault(line, Cause.OPERANDS)
    operands: UnresolvedOperands = []
    for form, word in zip(forms, words):
        operand = word if form is TARGET and is_label(word) else number_of(form, word)
        if operand is None:
            raise Fault(line, Cause.OPERAND_RANGE)
        operands.append(operand)
    return operands


def read_label(text: bytes, labels: dict[bytes, int], target: int, line: int) -> bytes:
    """The rest of a line after its label, which is recorded; or the whole line if it has no label."""
    if b":" not in text:
        return text
    label, rest = text.split(b":", 1)
    label = label.strip(BLANKS)
    if label in labels:
        raise Fault(line, Cause.LABEL_TWICE)
    if not is_label(label):
        raise Fault(line, Cause.UNKNOWN_INSTRUCTION)
    labels[label] = target
    return rest.strip(BLANKS)


def assemble(lines: Iterable[bytes], first: int) -> list[Instruction]:
    """The program of the lines after its first line, which has the number `first`."""
    unresolved: list[Unresolved] = []
    labels: dict[bytes, int] = {}
    for line, text in enumerate(lines, first + 1):
        without_comment = text.split(b";")[0].strip(BLANKS)
        statement = read_label(without_comment, labels, len(unresolved), line)
        if not statement:
            continue
        word = re.split(rb"[ \t]", statement, maxsplit=1)[0]
        name = word.decode("latin-1")
        if name not in FORMS:
            raise Fault(line, Cause.UNKNOWN_INSTRUCTION)
        if len(unresolved) == MAX_INSTRUCTIONS:
            raise Fault(line, Cause.TOO_MANY_INSTRUCTIONS)
        operands = read_operands(FORMS[name], statement[len(word):].strip(BLANKS), line)
        unresolved.append(Unresolved(line, name, operands))
    if not unresolved:
        raise Fault(first, Cause.NO_INSTRUCTIONS)
    return [resolved(instruction, labels) for instruction in unresolved]


def resolved(unresolved: Unresolved, labels: dict[bytes, int]) -> Instruction:
    """An instruction, with the place of an instruction instead of each label."""
    operands = []
    for operand in unresolved.operands:
        if isinstance(operand, bytes):
            if operand not in labels:
                raise Fault(unresolved.line, Cause.NO_SUCH_LABEL)
            operand = labels[operand]
        operands.append(operand)
    return Instruction(unresolved.name, tuple(operands))


def uses_headspeed(instruction: Instruction) -> bool:
    """Whether an instruction gets the speed of the car ahead, which programs of version 1 cannot do."""
    return instruction.name == "get" and instruction.operands[1] == HEADSPEED


def count_in_fields(forms: Sequence[Form]) -> int:
    """How many operands of an instruction are in its fields."""
    return sum(form in IN_FIELDS for form in forms)


def instruction_of(code: bytes, version: int, line: int) -> Instruction:
    """The instruction of eight bytes."""
    opcode, fields, number = code[0], code[1:1 + FIELDS], int.from_bytes(code[1 + FIELDS:], "little")
    if not 1 <= opcode <= len(NAMES):
        raise Fault(line, Cause.OPCODE)
    name = NAMES[opcode - 1]
    forms = FORMS[name]
    count = count_in_fields(forms)
    used, unused = tuple(fields[:count]), tuple(fields[count:])
    # All operands are in fields, or the last one is the number.
    if count < len(forms):
        used += (number,)
    else:
        unused += (number,)
    instruction = Instruction(name, used)
    is_too_new = version < VERSION_WITH_HEADSPEED and uses_headspeed(instruction)
    if any(unused) or is_too_new or not all(map(is_in_range, forms, instruction.operands)):
        raise Fault(line, Cause.FIELD_RANGE)
    return instruction


def decode(code: bytes, line: int) -> Decoded:
    """The program of the bytes on a line."""

    def fail(cause: Cause) -> NoReturn:
        raise Fault(line, cause)

    if len(code) < HEADING_SIZE:
        fail(Cause.CUT_CODE)
    magic, version, kind, count = code[:4], code[4], code[5], int.from_bytes(code[6:8], "little")
    size = HEADING_SIZE + INSTRUCTION_SIZE * count
    if magic != MAGIC:
        fail(Cause.FIRST_BYTES)
    if version not in (1, VERSION_WITH_HEADSPEED):
        fail(Cause.VERSION)
    if kind >= len(KINDS):
        fail(Cause.OTHER_KIND)
    if not 1 <= count <= MAX_INSTRUCTIONS:
        fail(Cause.INSTRUCTION_COUNT)
    if len(code) < size:
        fail(Cause.CUT_CODE)
    starts = range(HEADING_SIZE, size, INSTRUCTION_SIZE)
    instructions = [instruction_of(code[start:start + INSTRUCTION_SIZE], version, line) for start in starts]
    if version == VERSION_WITH_HEADSPEED and not any(map(uses_headspeed, instructions)):
        fail(Cause.NEEDLESS_VERSION)
    if len(code) > size:
        fail(Cause.BYTES_AFTER_CODE)
    return Decoded(KINDS[kind], instructions)


def encode(kind: str, instructions: Sequence[Instruction]) -> bytes:
    """The bytes of a program."""
    version = VERSION_WITH_HEADSPEED if any(map(uses_headspeed, instructions)) else 1
    code = MAGIC + bytes([version, KINDS.index(kind)]) + len(instructions).to_bytes(2, "little")
    for name, operands in instructions:
        used_fields = count_in_fields(FORMS[name])
        fields = bytes(operands[:used_fields]).ljust(FIELDS, b"\0")
        number = operands[used_fields] if used_fields < len(operands) else 0
        code += bytes([NAMES.index(name) + 1]) + fields + number.to_bytes(4, "little")
    return code


def target_of(instruction: Instruction) -> Optional[int]:
    """The instruction to which a jump goes, or None for another instruction."""
    return instruction.operands[-1] if TARGET in FORMS[instruction.name] else None


def operand_text(form: Form, number: int, count: int) -> str:
    """An operand in the canonical form, in a program of `count` instructions."""
    if form in REGISTERS:
        return f"r{number}"
    if form is INPUT:
        return INPUTS[number]
    if form is TARGET:
        return f"L{number}" if number < count else f"@{number}"
    return str(number)


def disassemble(instructions: Sequence[Instruction]) -> bytes:
    """The canonical text of a program."""
    count, targets = len(instructions), set(map(target_of, instructions))
    lines = []
    for place, (name, operands) in enumerate(instructions):
        label = f"L{place}: " if place in targets else ""
        words = ", ".join(operand_text(form, number, count) for form, number in zip(FORMS[name], operands))
        lines.append(f"{label}{name} {words}".rstrip())
    return "".join(line + "\n" for line in lines).encode()


def instructions_after(instructions: Sequence[Instruction], place: int) -> list[int]:
    """The instructions that may follow the one at a place."""
    instruction = instructions[place]
    target = target_of(instruction)
    following = [] if instruction.name in (*ENDS, "jump") else [place + 1]
    return following if target is None else [*following, target]


def budget(instructions: Sequence[Instruction]) -> Optional[int]:
    """The number of instructions on the longest path through a program; None if a path goes back or outside."""
    count = len(instructions)
    longest = [0] * count
    for place in reversed(range(count)):
        following = instructions_after(instructions, place)
        if not all(place < after < count for after in following):
            return None
        longest[place] = 1 + max((longest[after] for after in following), default=0)
    return longest[0]
