"""The cases of the files cases/*.cases: command lines, their input, and the required status and output. cases/README.md
describes the format."""
import re
from collections.abc import Iterator
from typing import NamedTuple, Optional, Union

from . import TOP

# A line in which each backslash but the last begins an escape.
WELL_FORMED = re.compile(r"([^\\]|\\[strkb0\\])*\\?")
ESCAPE = re.compile(r"\\(.)")
# An end with a backslash of its own, after which the line has no line feed.
OPEN_END = re.compile(r"(?<!\\)(\\\\)*\\$")
ESCAPES = {"s": " ", "t": "\t", "r": "\r", "0": "\0", "b": "\ufeff", "\\": "\\"}
# The options with which a command runs in parallel.
PARALLEL_OPTIONS = {"run": "--workers 16", "sweep": "--runners 16 --workers 16"}
# The forms of `explain` that take an input, and those that take a number.
EXPLAINED = ("explain", "explain run", "explain sweep", "explain check")
NUMBERED = ("explain cause", "explain reason")


class Broken(Exception):
    """A line does not belong in a case file, or is in the wrong place."""


class Part(NamedTuple):
    """Words at the left of a file, the number of their line, and the text beside them, or None without text."""

    words: str
    line: int
    text: Optional[str]


class Calls(NamedTuple):
    """Command lines, and their input."""

    lines: list[list[str]]
    given: str


class Command(NamedTuple):
    """A part that is a command: the number of its line, and its calls."""

    line: int
    calls: Calls


class Expected(NamedTuple):
    """An exit status, an output, and how much of the output this is: "all", its "first lines", or "nothing"."""

    status: int
    output: bytes
    extent: str


class Call(NamedTuple):
    """A call of the program: a name for messages, the words of a command line, and an input."""

    name: str
    words: list[str]
    text: bytes


class Case(NamedTuple):
    """A case: its place, its command lines, and for each of them the same input, exit status and output."""

    name: str
    calls: list[list[str]]
    given: bytes
    status: int
    output: bytes
    extent: str  # as in `Expected`

    def is_met(self, status: Union[int, str], output: bytes) -> bool:
        """Whether a status and an output are those of the case."""
        is_output = {"all": output == self.output, "first lines": output.startswith(self.output), "nothing": True}
        return status == self.status and is_output[self.extent]


def line_of(text: str, number: int) -> Optional[str]:
    """A line of a part, with this number among repeated lines; None if it is malformed."""
    if not WELL_FORMED.fullmatch(text):
        return None
    written = ESCAPE.sub(lambda escape: str(number) if escape[1] == "k" else ESCAPES[escape[1]], text)
    return written[:-1] if OPEN_END.search(text) else written + "\n"


def lines_of(text: str, count: int) -> Optional[str]:
    """A line of a part, repeated; the copies differ only if they contain their number. None if it is malformed."""
    if "\\k" not in text:
        line = line_of(text, 0)
        return None if line is None else line * count
    lines = [line_of(text, number) for number in range(count)]
    well_formed = [line for line in lines if line is not None]
    return "".join(well_formed) if len(well_formed) == len(lines) else None


def parts_of(content: str) -> list[Part]:
    """The parts of a file. A title is a part without text."""
    parts: list[Part] = []
    for number, line in enumerate(content.split("\n"), 1):
        if not line or line.startswith("#"):
            continue
        words, bar, text = line.partition("|")
        words, text = words.strip() if bar else line, text.removeprefix(" ")
        if words and not words.isdigit():
            parts.append(Part(words, number, None))
        if bar:
            more = lines_of(text, int(words) if words.isdigit() else 1)
            if not parts or more is None:
                raise Broken(f"line {number}")
            parts[-1] = parts[-1]._replace(text=(parts[-1].text or "") + more)
    return parts


def calls_of(part: Part, front: str) -> Optional[Calls]:
    """The command lines of a part and their input; None if its words are not a command."""
    command, text = part.words, part.text or ""
    if command == "words":
        # Each line of the text is a command line, and the front is their input.
        return Calls([line.split() for line in text.split("\n")[:-1]], front)
    if command in PARALLEL_OPTIONS:
        return Calls([[command], [command, *PARALLEL_OPTIONS[command].split()]], front + text)
    if command == "check" or command in EXPLAINED:
        return Calls([command.split()], front + text)
    if command in NUMBERED:
        number = text.strip()
        return Calls([[*command.split(), number]], "")
    return None


def expected_by(part: Part) -> Optional[Expected]:
    """The answer that a part requires; None if it is not an answer."""
    if part.words == "status" and part.text and part.text.strip().isdigit():
        return Expected(int(part.text), b"", "nothing")
    ends = {"done": (0, "all"), "refused": (1, "all"), "begins": (0, "first lines")}
    if part.words not in ends or part.text is None:
        return None
    status, extent = ends[part.words]
    return Expected(status, part.text.encode(), extent)


def cases_of(name: str, content: str) -> Iterator[Case]:
    """The cases of a file. Its parts are titles, fronts, and commands, each followed by the expected answer."""
    title, front = "", ""
    command: Optional[Command] = None
    for part in parts_of(content):
        if command:
            # The part before was a command, so that this one is the expected answer.
            expected = expected_by(part)
            if not expected or not command.calls.lines:
                raise Broken(f"line {part.line}")
            place = f"{name}, line {command.line}, {title}"
            yield Case(place, command.calls.lines, command.calls.given.encode(), *expected)
            command = None
        elif part.words.startswith("== ") and not part.text:
            title = part.words[3:]
        elif part.words == "front":
            front = part.text or ""
        elif calls := calls_of(part, front):
            command = Command(part.line, calls)
        else:
            raise Broken(f"line {part.line}")
    if command:
        raise Broken(f"line {command.line}")


def files() -> Iterator[tuple[str, str]]:
    """The names and the contents of the case files."""
    for path in sorted((TOP / "cases").glob("*.cases")):
        yield path.name, path.read_bytes().decode()


def first_calls() -> Iterator[Call]:
    """The first call of each case."""
    for name, content in files():
        for case in cases_of(name, content):
            yield Call(case.name, case.calls[0], case.given)
