"""The eight registers: which values are needed at once, which of them share a register, and the text of the program."""
from __future__ import annotations

from collections import defaultdict
from collections.abc import Sequence
from typing import NamedTuple, Optional

from .emission import ENDS, Instruction, Item, Label, Place, Register

COUNT = 8
"""The registers of a program."""

MAX_INSTRUCTIONS = 128
"""The most instructions of a program."""

_COMMENT_COLUMN = 32
"""The column at which comments begin."""

_MAX_COMMENT = 70
"""The maximum number of characters of a comment."""

Conflicts = dict[Register, set[Register]]


class TooManyError(Exception):
    """More values are needed at once than there are registers: at this place, with these names."""

    def __init__(self, place: Place, names: Sequence[str]) -> None:
        super().__init__(place, names)
        self.place, self.names = place, names


class TooLongError(Exception):
    """A program needs at least this number of instructions, which is too many."""

    def __init__(self, count: int) -> None:
        super().__init__(count)
        self.count = count


class Written(NamedTuple):
    """The lines of a program, and the instruction of each."""

    lines: list[str]
    instructions: list[Instruction]

    def text(self, kind: str, title: str) -> str:
        """The text of a program of this kind."""
        return "\n".join([kind, f"; {title}", *self.lines, ""])


def written(items: Sequence[Item]) -> Written:
    """The program with eight registers. Raises `TooManyError` if they do not suffice, and `TooLongError`."""
    needed = _without_unread(items)
    # Copies and jumps may still be left out. (This is checked first, because very long programs would take very long.)
    _need_short(sum(isinstance(item, Instruction) and item.target is None and item.name != "copy" for item in needed))
    numbers = _numbers(needed)

    def copies_to_itself(item: Item) -> bool:
        """Whether an instruction copies a register to itself."""
        return isinstance(item, Instruction) and item.name == "copy" and numbers[item.writes] == numbers[item.reads[0]]

    without_copies = [item for item in needed if not copies_to_itself(item)]
    program = _lines(_without_short_jumps(without_copies), numbers)
    _need_short(len(program.lines))
    return program


def _need_short(count: int) -> None:
    """Raises `TooLongError` for too many instructions."""
    if count > MAX_INSTRUCTIONS:
        raise TooLongError(count)


def _living(items: Sequence[Item]) -> list[set[Register]]:
    """The registers that are read after each item. All jumps go forward, so one pass from the end is enough: `living`
    are the registers that are read after the current item."""
    after: list[set[Register]] = []
    living: set[Register] = set()
    living_at: dict[Optional[Label], set[Register]] = {}
    for item in reversed(items):
        if isinstance(item, Label):
            living_at[item] = set(living)
            after.append(set(living))
            continue
        if item.name in ENDS:
            living = set()
        living |= living_at.get(item.target, set())
        after.append(set(living))
        living = living - {item.writes} | set(item.reads)
    return after[::-1]


def _without_unread(items: Sequence[Item]) -> list[Item]:
    """The items without instructions whose result is not read. A difference stays, because the translation assumed that
    it is not negative, possibly in order to leave it out, and the verifier has to confirm this."""
    while True:
        read_items = [item for item, living in zip(items, _living(items)) if _is_needed(item, living)]
        if len(read_items) == len(items):
            return read_items
        items = read_items


def _is_needed(item: Item, living: set[Register]) -> bool:
    """Whether an item is a label, has a result that is read later, or has no result, or is a difference."""
    return isinstance(item, Label) or item.writes is None or item.writes in living or item.difference is not None


def _without_short_jumps(items: Sequence[Item]) -> list[Item]:
    """The items without jumps to the next instruction."""
    remaining: list[Item] = []
    next_labels: set[Label] = set()
    for item in reversed(items):
        if isinstance(item, Label):
            next_labels.add(item)
        elif item.target in next_labels:
            continue
        else:
            next_labels = set()
        remaining.append(item)
    return remaining[::-1]


def _conflicts(items: Sequence[Item]) -> Conflicts:
    """The registers that are needed at the same time as another one. They are in the order of the text, so that the
    same function always becomes the same program."""
    instructions = [item for item in items if isinstance(item, Instruction)]
    conflicts: Conflicts = {register: set() for instruction in instructions for register in instruction.registers()}
    for item, after in zip(items, _living(items)):
        if isinstance(item, Instruction) and item.writes is not None:
            # A copy may have the register of its source.
            may_share = {item.writes, *item.reads} if item.name == "copy" else {item.writes}
            for other in after - may_share:
                conflicts[other].add(item.writes)
                conflicts[item.writes].add(other)
    return conflicts


def _numbers(items: Sequence[Item]) -> dict[Optional[Register], int]:
    """A number for each register, so that those in conflict have different ones, and if possible a copy has that of its
    source. They get them in the order of the text."""
    conflicts, copies = _conflicts(items), _copies(items)
    numbers: dict[Optional[Register], int] = {}
    for register, others in conflicts.items():
        free = set(range(COUNT)) - {numbers[other] for other in others if other in numbers}
        if not free:
            raise _too_many(items)
        alike = [numbers[other] for other in copies[register] if numbers.get(other) in free]
        numbers[register] = alike[0] if alike else min(free)
    return numbers


def _copies(items: Sequence[Item]) -> dict[Register, list[Register]]:
    """The registers that are copied to or from each register."""
    copies: dict[Register, list[Register]] = defaultdict(list)
    for item in items:
        if isinstance(item, Instruction) and item.name == "copy" and item.writes is not None:
            copies[item.writes].append(item.reads[0])
            copies[item.reads[0]].append(item.writes)
    return copies


def _too_many(items: Sequence[Item]) -> TooManyError:
    """The place at which the most values are needed at once."""
    place, most_living = Place("", 0, ""), set[Register]()
    for item, living in zip(items, _living(items)):
        if isinstance(item, Instruction) and len(living) > len(most_living):
            place, most_living = item.place, living
    return TooManyError(place, sorted({register.name for register in most_living}))


def _lines(items: Sequence[Item], numbers: dict[Optional[Register], int]) -> Written:
    """The lines of a program, with the Python expressions that they come from as comments. There are no numbers of
    lines in them, so that a program, and its results in a cache, stay the same if the function moves within its
    file."""
    targets: dict[Optional[Label], int] = {}
    instructions: list[Instruction] = []
    for item in items:
        if isinstance(item, Label):
            targets[item] = len(instructions)
        else:
            instructions.append(item)
    jump_targets = {targets[instruction.target] for instruction in instructions if instruction.target is not None}
    lines, last_place = [], None
    for number, instruction in enumerate(instructions):
        operands = [*(f"r{numbers[register]}" for register in instruction.registers()), *map(str, instruction.constants)]
        if instruction.target is not None:
            operands.append(f"L{targets[instruction.target]}")
        label = f"L{number}: " if number in jump_targets else ""
        line = label + f"{instruction.name} {', '.join(operands)}".rstrip()
        if instruction.place != last_place:
            comment = instruction.place.text[:_MAX_COMMENT].encode("ascii", "replace").decode()
            line = f"{line:<{_COMMENT_COLUMN}}; {comment}"
        lines.append(line)
        last_place = instruction.place
    return Written(lines, instructions)
