"""Snapshots as the program writes them: checked, and kept as text until they are needed."""
from __future__ import annotations

import re
from collections.abc import Iterable, Iterator, Sequence
from functools import partial
from itertools import chain, islice
from typing import TYPE_CHECKING, Any, NamedTuple, Optional

from .._errors import OutputFormatError
from .._inputs.states import SPEEDS

if TYPE_CHECKING:
    import numpy

    Array = numpy.ndarray[Any, Any]

# The first line of a snapshot.
HEADING = re.compile(b"step ([0-9]+)\n")
BLOCK = 1 << 18

LINE_FEED = 10

CELLS = f".{SPEEDS}".encode()
"""The characters of cells."""

_NOT_A_CELL = "a character that is neither a speed nor a dot"

EMPTY = -1
# The speed of each character as a signed byte: that of an empty cell, and -2 for a character that no cell has.
NUMBERS = bytes(255 if chr(sign) == "." else SPEEDS.find(chr(sign)) % 255 for sign in range(256))


class Snapshot(NamedTuple):
    """The road at a step. Each lane is a string: `.` is an empty cell, `0` to `9` and `a` to `z` a car and its
    speed."""

    step: int
    lanes: tuple[str, ...]

    def speeds(self) -> list[list[Optional[int]]]:
        """Speeds by lane and cell, in cells per step; None for an empty cell."""
        return [[None if cell == "." else SPEEDS.index(cell) for cell in lane] for lane in self.lanes]


class WrittenSnapshots(Sequence[Snapshot]):
    """Snapshots of a run as text. A `Snapshot` is made at each access.

    The lanes of each step, all of `length` cells and a line feed, begin at its place in the text."""

    def __init__(self, text: bytes, steps: range, places: list[int], lanes: int, length: int) -> None:
        self.text, self.steps, self.places, self.lanes, self.length = text, steps, places, lanes, length

    def __len__(self) -> int:
        return len(self.steps)

    def __iter__(self) -> Iterator[Snapshot]:
        # As `Snapshot` does, but without a call of Python for each of them.
        make: Any = partial(tuple.__new__, Snapshot)
        return map(make, zip(self.steps, zip(*map(self._lane, range(self.lanes)))))

    def _lane(self, number: int) -> Iterator[str]:
        """A lane of each snapshot."""
        begin = number * (self.length + 1)
        end = begin + self.length
        return (self.text[place + begin:place + end].decode() for place in self.places)

    def __getitem__(self, place: Any) -> Any:
        steps = self.steps[place]
        if isinstance(steps, range):
            return WrittenSnapshots(self.text, steps, self.places[place], self.lanes, self.length)
        road = self.text[self.places[place]:self.places[place] + self.lanes * (self.length + 1)]
        return Snapshot(steps, tuple(road.decode("latin-1").split("\n")[:-1]))

    def __reduce__(self) -> Any:
        headings = map(b"step %d\n".__mod__, self.steps)
        return read_snapshots, (b"".join(chain.from_iterable(zip(headings, self._roads(self.places)))),)

    def _roads(self, places: list[int]) -> Iterator[bytes]:
        """All lanes of the snapshots at these places, each lane with its line feed."""
        size = self.lanes * (self.length + 1)
        return (self.text[place:place + size] for place in places)

    def speeds(self) -> Array:
        """The speed by snapshot, lane and cell, and -1 for an empty cell; raises `OutputFormatError` if a cell is
        neither."""
        from .arrays import numpy

        speeds = numpy.empty((len(self), self.lanes, self.length), dtype=numpy.int8)
        at_once = BLOCK // (self.lanes * (self.length + 1)) + 1
        for first in range(0, len(self), at_once):
            roads = b"".join(self._roads(self.places[first:first + at_once])).translate(NUMBERS)
            lanes = numpy.frombuffer(roads, dtype=numpy.int8).reshape(-1, self.lanes, self.length + 1)
            speeds[first:first + at_once] = lanes[:, :, :-1]
        return checked_speeds(speeds)


def speeds_in(signs: str) -> Array:
    """The speed of each character, and -1 for an empty cell; raises `OutputFormatError` if it is neither."""
    from .arrays import numpy

    return checked_speeds(numpy.frombuffer(bytearray(signs.encode().translate(NUMBERS)), dtype=numpy.int8))


def checked_speeds(speeds: Array) -> Array:
    """The same speeds; raises `OutputFormatError` if one is not that of a cell."""
    if speeds.min(initial=0) < -1:
        raise OutputFormatError(f"a cell has {_NOT_A_CELL}")
    return speeds


def read_snapshots(text: bytes) -> Sequence[Snapshot]:
    """The snapshots in the output of a run; raises `OutputFormatError` if it is not one, or cut off."""
    snapshots: Optional[Sequence[Snapshot]] = _regular_snapshots(text)
    if snapshots is None:
        # An error of its own is better than one of decoding.
        snapshots = list(snapshots_in(text.decode("latin-1").splitlines(True)))
    # Each heading has one space, and no lane has one.
    if text.translate(None, CELLS + b" \n") or text.count(b" ") != len(snapshots):
        raise OutputFormatError(_cell_fault(text.decode("latin-1").split("\n"), len(snapshots[0].lanes)))
    return snapshots


def _cell_fault(lines: list[str], lanes: int) -> str:
    """Describes the lane, one of `lanes` between two headings, that has a character that no cell has."""
    place = next(place for place, line in enumerate(lines) if place % (lanes + 1) and line.strip(CELLS.decode()))
    return f"line {place + 1} of the run has {_NOT_A_CELL}: {_shown(lines[place])}"


def _regular_snapshots(text: bytes) -> Optional[WrittenSnapshots]:
    """The snapshots if all have one shape, and follow each other at equal intervals of steps; None if they do not."""
    first = HEADING.match(text)
    if not first:
        return None
    second = HEADING.search(text, first.end())
    road = text[first.end():second.start() if second else len(text)]
    lanes, length = road.count(b"\n"), road.find(b"\n")
    every = int(second[1]) - int(first[1]) if second else 1
    if not 1 <= lanes <= 2 or length < 1 or every < 1 or len(road) != lanes * (length + 1):
        return None
    begin, step = 0, int(first[1])
    places: list[int] = []
    while begin < len(text):
        # Snapshots are equally long as long as their steps have the same number of digits.
        heading_length = len(f"step {step}\n")
        size = heading_length + len(road)
        steps = range(step, 10**len(str(step)), every)[:(len(text) - begin) // size]
        end = begin + size * len(steps)
        if not steps or not _has_headings(text, steps, range(begin, end, size)):
            return None
        line_ends = range(heading_length + length, size, length + 1)
        if not all(_has_line_feeds(text, range(begin + line_end, end, size)) for line_end in line_ends):
            return None
        places += range(begin + heading_length, end, size)
        begin, step = end, steps[-1] + every
    return WrittenSnapshots(text, range(int(first[1]), step, every), places, lanes, length)


def _has_headings(text: bytes, steps: range, places: range) -> bool:
    """Whether the headings of these steps, which have as many digits, are at these places."""
    length = len(f"step {steps[0]}\n")
    headings = b"".join([text[place:place + length] for place in places])
    return headings == ("step %d\n" * len(steps) % (*steps,)).encode()


def _has_line_feeds(text: bytes, places: range) -> bool:
    """Whether a line feed is at each of these places."""
    return {*map(text.__getitem__, places)} == {LINE_FEED}


def snapshots_in(lines: Iterable[str]) -> Iterator[Snapshot]:
    """The snapshots in the output of a run, one by one.

    Raises `OutputFormatError` if a line is not one of a snapshot, or if the output is cut off: all snapshots have the
    same number of lanes and cells."""
    lines = iter(lines)
    # The lines up to the second heading, which shows how many lanes there are.
    first_lines = [*islice(lines, 1)]
    for line in lines:
        first_lines.append(line)
        if line.startswith("step "):
            break
    count = sum(not line.startswith("step ") for line in first_lines) or 1
    if count > 2 and first_lines[3].endswith("\n"):
        raise OutputFormatError(f"the first snapshot of the run has {count} lanes, and a road has one or two")
    length = max(1, "".join(first_lines[1:2]).find("\n"))
    make: Any = partial(tuple.__new__, Snapshot)
    # Missing lanes of the last snapshot are empty.
    for group in zip(*[chain(first_lines, lines, [""] * count)] * (count + 1)):
        heading, step = group[0], group[0][5:-1]
        road: tuple[str, ...]
        if count == 1:
            # Most roads have one lane, which is read without a list.
            is_road, road = group[1].find("\n") == length, (group[1][:length],)
        else:
            road = tuple([lane[:length] for lane in group[1:] if lane.find("\n") == length])
            is_road = len(road) == count
        if not (is_road and heading.startswith("step ") and step.isdecimal()):
            # The end of the output may say why it is cut off.
            next(lines, "")
            raise OutputFormatError(_snapshot_fault(heading, [*group[1:]], length))
        yield make((int(step), road))


def _snapshot_fault(heading: str, lanes: list[str], length: int) -> str:
    """The reason why these lines are not a snapshot with lanes of this length."""
    if heading.endswith("\n") and not HEADING.fullmatch(heading.encode()):
        return f"this is not the heading of a snapshot of a run: {_shown(heading)}"
    if not all(line.endswith("\n") for line in (heading, *lanes)):
        return f"the output of the run is cut off in the snapshot of {_shown(heading)}"
    lane_of_other_length = next(lane for lane in lanes if len(lane) != length + 1)
    return f"a lane of {heading.strip()} is not as long as the first lane of the run: {_shown(lane_of_other_length)}"


def _shown(line: str) -> str:
    """A line in a message, cut to a readable length."""
    return repr(line.rstrip("\n")[:80])
