"""The layers of the crates, from crates.txt."""
import re
import textwrap
from collections.abc import Iterator
from itertools import cycle
from typing import NamedTuple

from ... import TOP as REPOSITORY
from .svg import FRAME, SMALL, Drawing

CRATES = REPOSITORY / "crates.txt"
# A layer in crates.txt: `# NAME: SUBJECT` or `# NAME`, and below it the lines of its crates.
LAYER = re.compile(r"^# ([^:\n]*)(?:: ([^\n]*))?\n((?:trlab_\w+:.*\n)+)", re.M)
# A line of crates.txt: `CRATE: USED USED ..`.
CRATE = re.compile(r"^(\w+):(.*)$", re.M)
NOT_A_LAYER = "Tests and examples"
FILLS = "#e4edf7", "#e2f3ea", "#fdf1dc", "#f7e6ef", "#e9e6f7", "#f0f0f0"
# The boxes of layers: the distance from the edge of the drawing, and the left edge of their words.
MARGIN, LEFT_OF_WORDS = 20, 36
# The boxes of crates: the left edge of the first of a row, width, height, and the distances of columns and rows.
LEFT, WIDTH, HEIGHT, COLUMN, ROW = 236, 150, 26, 164, 35
# The space between layers, and within a layer above and below its crates.
SPACE = 8
# The subject of a layer: its characters per line, its letters, and the distance of its lines.
SUBJECT_WIDTH, SUBJECT_SIZE, LINE = 30, 11.5, 15
GREY = "#909090"


class Layer(NamedTuple):
    """A layer, and its crates in rows, lowest first: each crate is above the crates of its layer that it uses."""

    name: str
    subject: str
    rows: list[list[str]]

    @property
    def height(self) -> int:
        """The height in the drawing."""
        return len(self.rows) * ROW + SPACE


def rows(crates: dict[str, list[str]]) -> list[list[str]]:
    """The rows of a layer, from its crates with the crates that they use. A crate comes after those that it uses."""
    height: dict[str, int] = {}
    for crate, used in crates.items():
        height[crate] = 1 + max((height[other] for other in used if other in crates), default=-1)
    return [[crate for crate in crates if height[crate] == level] for level in range(max(height.values()) + 1)]


def layers() -> Iterator[Layer]:
    """The layers, lowest first."""
    for name, subject, lines in LAYER.findall(CRATES.read_text("utf-8")):
        if name != NOT_A_LAYER:
            yield Layer(name, subject, rows({crate: used.split() for crate, used in CRATE.findall(lines)}))


def draw_layer(drawing: Drawing, layer: Layer, y: float, fill: str) -> None:
    """A layer with its upper edge at y: its name and subject at the left, and its crates."""
    drawing.box(MARGIN, y, drawing.width - 2 * MARGIN, layer.height, fill, FRAME, 6)
    lines = textwrap.wrap(layer.subject, SUBJECT_WIDTH)
    # The name and the subject are in the middle of the height.
    first_line = y + layer.height / 2 + 5 - 8 * len(lines)
    drawing.text(LEFT_OF_WORDS, first_line, layer.name, weight="bold")
    for number, line in enumerate(lines):
        drawing.text(LEFT_OF_WORDS, first_line + 16 + LINE * number, line, size=SUBJECT_SIZE)
    for level, crates in enumerate(layer.rows):
        top = y + layer.height - SPACE - level * ROW - HEIGHT
        for number, crate in enumerate(crates):
            x = LEFT + number * COLUMN
            drawing.box(x, top, WIDTH, HEIGHT, "white", GREY)
            drawing.code(x + WIDTH / 2, top + 17, crate.removeprefix("trlab_"), "middle", SMALL)


def draw() -> str:
    """The layers, the lowest one at the bottom."""
    parts = list(layers())
    y = sum(layer.height + SPACE for layer in parts) + 12
    drawing = Drawing(LEFT + 3 * COLUMN + 30, y + 20)
    for fill, layer in zip(cycle(FILLS), parts):
        y -= layer.height
        draw_layer(drawing, layer, y, fill)
        y -= SPACE
    return drawing.svg()
