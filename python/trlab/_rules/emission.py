"""Instructions as they are made: with any number of registers, and a label for the target of each jump."""
from __future__ import annotations

from collections.abc import Sequence
from dataclasses import dataclass
from typing import NamedTuple, NoReturn, Optional, Union

from .._errors import RuleError

MAX_NUMBER = 2**32 - 1
"""The largest number of a register."""

ENDS = ("jump", "go", "cross", "stay")
"""The instructions after which a program does not continue with the next one."""


class Register:
    """A register before it is one of the eight, with a name for messages."""

    def __init__(self, name: str) -> None:
        self.name = name


class Label:
    """The target of a jump."""


class Place(NamedTuple):
    """The line of a Python file, and the expression on it, that an instruction comes from."""

    file: str
    line: int
    text: str

    def fail(self, message: str) -> NoReturn:
        """Raises the error of this place."""
        raise RuleError(self.file, self.line, message)


@dataclass(eq=False)
class Instruction:
    """An instruction: the register that it writes, those that it reads, its numbers and names, and the target of its
    jump.

    A `difference` has a number if the translation assumes that it is not negative, which the verifier has to
    confirm."""

    name: str
    writes: Optional[Register]
    reads: tuple[Register, ...]
    constants: tuple[object, ...]
    target: Optional[Label]
    place: Place
    difference: Optional[int] = None

    def registers(self) -> list[Register]:
        """The registers of the instruction, in the order of its text."""
        return [*([] if self.writes is None else [self.writes]), *self.reads]


Operand = Union[int, Register]
Item = Union[Instruction, Label]


class Emitter:
    """The instructions so far, and the variables that have a value on every path to the next one.

    With `shares` each constant has one register for the whole program, because the verifier then learns from a
    comparison how much may be subtracted later. Otherwise each use has its own, which needs fewer registers at once."""

    def __init__(self, shares: bool) -> None:
        self.shares, self.place = shares, Place("", 0, "")
        self.is_live, self.assigned = True, set[object]()
        self._items: list[Item] = []
        self._constants: dict[int, Register] = {}
        self._paths: dict[Label, list[set[object]]] = {}

    def emit(
        self, name: str, writes: Optional[Register] = None, *reads: Operand, constants: Sequence[object] = (),
        target: Optional[Label] = None, difference: Optional[int] = None,
    ) -> None:
        """Adds an instruction, unless no path leads here."""
        registers = tuple(self.held(operand) for operand in reads)
        if not self.is_live:
            return
        for number in constants:
            self._need_small(number)
        self._items.append(Instruction(name, writes, registers, tuple(constants), target, self.place, difference))
        if target is not None:
            self._paths.setdefault(target, []).append(set(self.assigned))
        self.is_live = name not in ENDS

    def new(
        self, name: str, *reads: Operand, constants: Sequence[object] = (), difference: Optional[int] = None
    ) -> Register:
        """The same with a new register for the result."""
        result = Register(self.place.text)
        self.emit(name, result, *reads, constants=constants, difference=difference)
        return result

    def held(self, operand: Operand) -> Register:
        """A register that holds this."""
        if isinstance(operand, Register):
            return operand
        if not self.shares:
            return self.new("num", constants=[operand])
        self._need_small(operand)
        return self._constants.setdefault(operand, Register(str(operand)))

    def _need_small(self, number: object) -> None:
        """Raises the error of a place if a number does not fit in a register."""
        if isinstance(number, int) and number > MAX_NUMBER and self.is_live:
            self.place.fail(f"`{self.place.text}` needs the number {number}, and the greatest is {MAX_NUMBER}")

    def label(self, label: Label) -> None:
        """The target of the jumps to a label. A variable has a value here if it has one on all paths to it."""
        paths = self._paths.pop(label, []) + ([self.assigned] if self.is_live else [])
        if paths:
            self._items.append(label)
            self.is_live, self.assigned = True, set.intersection(*paths)

    def items(self, place: Place) -> list[Item]:
        """The whole program, which begins with its shared constants, at this place."""
        constants = [
            Instruction("num", register, reads=(), constants=(number,), target=None, place=place)
            for number, register in self._constants.items()
        ]
        return [*constants, *self._items]
