"""The repairs that `trlab explain` proposes: each sentence that proposes one, and the change of the input that it means."""
import re
from collections.abc import Callable
from typing import NamedTuple, Optional

Match = re.Match[bytes]


class Input(NamedTuple):
    """An input, and the command that reads it."""

    command: str
    text: bytes


class CannotRepair(Exception):
    """A repair deletes or replaces bytes that the line does not have."""


def bytes_of(escaped: bytes) -> bytes:
    """The bytes of an input that an explanation shows."""
    return re.sub(rb"\\x([0-9a-f]{2})", lambda escape: bytes([int(escape[1], 16)]), escaped)


def index_of_line(match: Match) -> int:
    """The index of the line that a repair names by its number."""
    return int(match["line"]) - 1


def with_line(text: bytes, index: int, change: Callable[[bytes], bytes]) -> bytes:
    """An input in which one line is changed."""
    lines = text.split(b"\n")
    lines[index] = change(lines[index])
    return b"\n".join(lines)


def replace_line(text: bytes, match: Match) -> bytes:
    return with_line(text, index_of_line(match), lambda _: bytes_of(match["new"]))


def add_line_above(text: bytes, match: Match) -> bytes:
    return with_line(text, index_of_line(match), lambda line: bytes_of(match["new"]) + b"\n" + line)


def add_line_at_end(text: bytes, match: Match) -> bytes:
    is_line_open = text != b"" and not text.endswith(b"\n")
    return text + (b"\n" if is_line_open else b"") + bytes_of(match["new"]) + b"\n"


def swap_lines(text: bytes, match: Match) -> bytes:
    """An input in which a line and the next one have changed places."""
    lines, upper = text.split(b"\n"), index_of_line(match)
    lines[upper], lines[upper + 1] = lines[upper + 1], lines[upper]
    return b"\n".join(lines)


def delete_line(text: bytes, match: Match) -> bytes:
    lines = text.split(b"\n")
    del lines[index_of_line(match)]
    return b"\n".join(lines)


def cut_line(text: bytes, match: Match) -> bytes:
    """An input in which a line ends before a column."""
    return with_line(text, index_of_line(match), lambda line: line[:int(match["column"]) - 1])


def replace_bytes(text: bytes, match: Match) -> bytes:
    """An input in which some bytes of a line, which may be none, are replaced."""
    old, new, start = bytes_of(match["old"] or b""), bytes_of(match["new"] or b""), int(match["column"]) - 1

    def replaced(line: bytes) -> bytes:
        if line[start:start + len(old)] != old:
            raise CannotRepair
        return line[:start] + new + line[start + len(old):]

    return with_line(text, index_of_line(match), replaced)


# The sentences of explanations that propose a repair, and how it is made.
REPAIRS: list[tuple[str, Callable[[bytes, Match], bytes]]] = [
    (r"Replace line (?P<line>\d+) with `(?P<new>.*)`\.", replace_line),
    (r"Above line (?P<line>\d+), add the line `(?P<new>.*)`\.", add_line_above),
    (r"At the end, add the line `(?P<new>.*)`\.", add_line_at_end),
    (r"Swap lines (?P<line>\d+) and \d+\.", swap_lines),
    (r"Delete line (?P<line>\d+)\.", delete_line),
    (r"Line (?P<line>\d+): delete everything from column (?P<column>\d+) on\.", cut_line),
    (r"Line (?P<line>\d+), column (?P<column>\d+): (?P<old>)insert `(?P<new>.*?)`\.", replace_bytes),
    (r"Line (?P<line>\d+), column (?P<column>\d+): delete `(?P<old>.*?)`(?P<new>)\.", replace_bytes),
    (r"Line (?P<line>\d+), column (?P<column>\d+): replace `(?P<old>.*?)` with `(?P<new>.*)`\.", replace_bytes),
]
# The sentence that proposes another command for the input as it is.
READ_BY = re.compile(rb"Read it with `trlab (\w+)`\.")


def repaired(damaged: Input, sentence: bytes) -> Optional[Input]:
    """An input after the repair that a sentence proposes; None if it cannot be made."""
    if match := READ_BY.fullmatch(sentence):
        return damaged._replace(command=match[1].decode())
    for form, make_repair in REPAIRS:
        if match := re.fullmatch(form.encode(), sentence):
            try:
                return damaged._replace(text=make_repair(damaged.text, match))
            except CannotRepair:
                return None
    return None
