"""Drawings as SVG text: shapes, words, arrows, and roads of cells with cars.

Coordinates are pixels from the upper left corner: x to the right, y downwards. Those of words are where their line begins, or
its middle or end, by `anchor`. Numbers in calls without a name are small distances chosen by eye."""
from typing import List, Optional, Sequence, Tuple

# The colours of text and lines, frames, and stressed, allowed and forbidden things.
INK, FRAME, BLUE, GREEN, RED = "#303030", "#b0b0b0", "#0072b2", "#00805c", "#c04000"
# The font size of axes and legends.
SMALL = 12
# Red, green and blue of the colours of speeds at equal distances, as in docs/spacetime.awk.
HUES = [(122, 16, 22), (208, 66, 24), (243, 154, 46), (142, 196, 232), (76, 142, 200), (26, 86, 150)]
# The share of red, green and blue in brightness, and below which of 255 a colour needs white text.
BRIGHTNESS = 0.3, 0.59, 0.11
DARK = 140

Points = Sequence[Tuple[float, float]]


def shades(speed: int, fastest: int) -> List[int]:
    """Red, green and blue of a car: dark red if it is stopped, blue at the highest speed."""
    place = (len(HUES) - 1) * speed / fastest
    lower = min(int(place), len(HUES) - 2)
    return [round(low + (high - low) * (place - lower)) for low, high in zip(HUES[lower], HUES[lower + 1])]


def colour(speed: int, fastest: int) -> str:
    """The colour of a car in SVG's notation, such as `#7a1016`."""
    return "#" + "".join(f"{part:02x}" for part in shades(speed, fastest))


class Drawing:
    """An image that grows by shapes; the last one is on top."""

    def __init__(self, width: int, height: int) -> None:
        self.width, self.height = width, height
        self.parts: List[str] = []

    def box(
        self, x: float, y: float, width: float, height: float,
        fill: str = "white", stroke: str = FRAME, round_by: float = 4, stroke_width: float = 1,
    ) -> None:
        """A rectangle with its upper left corner at x, y."""
        self.parts.append(
            f'<rect x="{x:.1f}" y="{y:.1f}" width="{width:.1f}" height="{height:.1f}" rx="{round_by}" '
            f'fill="{fill}" stroke="{stroke}" stroke-width="{stroke_width}"/>'
        )

    def boxes(self, corners: Points, size: float, fill: str) -> None:
        """Squares of one size and colour, by their upper left corners."""
        steps = "".join(f"M{x:g} {y:g}h{size:g}v{size:g}h{-size:g}z" for x, y in corners)
        self.parts.append(f'<path d="{steps}" fill="{fill}"/>')

    def text(
        self, x: float, y: float, words: str, anchor: str = "start",
        size: float = 13, fill: str = INK, weight: str = "", family: str = "", turned: bool = False,
    ) -> None:
        """Words whose left end, middle or right end is at x, on the line y; they may be turned to be read upwards."""
        for sign, escaped in ("&", "&amp;"), ("<", "&lt;"), (">", "&gt;"):
            words = words.replace(sign, escaped)
        more = (f' font-weight="{weight}"' if weight else "") + (f' font-family="{family}"' if family else "")
        more += f' transform="rotate(-90 {x:.1f} {y:.1f})"' if turned else ""
        begin = f'<text x="{x:.1f}" y="{y:.1f}" text-anchor="{anchor}" font-size="{size}" fill="{fill}"{more}>'
        self.parts.append(f"{begin}{words}</text>")

    def code(self, x: float, y: float, words: str, anchor: str = "start", size: float = 13, fill: str = INK) -> None:
        """The same as `text` in a font for code."""
        self.text(x, y, words, anchor, size, fill, family="monospace")

    def circle(self, x: float, y: float, radius: float, fill: str, opacity: float = 1) -> None:
        """A disc around x, y."""
        self.parts.append(f'<circle cx="{x:.1f}" cy="{y:.1f}" r="{radius}" fill="{fill}" fill-opacity="{opacity}"/>')

    def line(self, x1: float, y1: float, x2: float, y2: float, stroke: str = INK) -> None:
        """A thin line from x1, y1 to x2, y2."""
        ends = f'x1="{x1:.1f}" y1="{y1:.1f}" x2="{x2:.1f}" y2="{y2:.1f}"'
        self.parts.append(f'<line {ends} stroke="{stroke}" stroke-width="1.2"/>')

    def path(self, steps: str, stroke: str = INK, width: float = 1.5, head: bool = False, dashes: str = "") -> None:
        """A path of SVG's own steps, such as `M0 0h5`, with an arrow head at its end if wanted."""
        more = f' marker-end="url(#{self._head(stroke)})"' if head else ""
        more += f' stroke-dasharray="{dashes}"' if dashes else ""
        self.parts.append(f'<path d="{steps}" stroke="{stroke}" stroke-width="{width}" fill="none"{more}/>')

    def polyline(self, points: Points, stroke: str, width: float = 1.5, head: bool = False, dashes: str = "") -> None:
        """Straight lines from point to point."""
        self.path("M" + "L".join(f"{x:.1f} {y:.1f}" for x, y in points), stroke, width, head, dashes)

    def arrow(self, x1: float, y1: float, x2: float, y2: float, stroke: str = INK, width: float = 1.5) -> None:
        """A straight arrow from x1, y1 to x2, y2."""
        self.polyline([(x1, y1), (x2, y2)], stroke, width, head=True)

    def sample(self, x: float, y: float, length: int, stroke: str, width: float = 1.5, dashes: str = "") -> None:
        """A short line in front of the words of a legend, from x on, at the middle of small letters on the line y."""
        self.path(f"M{x:.1f} {y - 4:.1f}h{length}", stroke, width, dashes=dashes)

    def _head(self, stroke: str) -> str:
        """The name of an arrow head of a colour, which is defined once."""
        name = f"head{stroke.strip('#')}"
        if not any(f'id="{name}"' in part for part in self.parts):
            place = 'refX="6.5" refY="4" markerWidth="6" markerHeight="6" orient="auto"'
            shape = f'<path d="M0 0L8 4L0 8z" fill="{stroke}"/>'
            self.parts.append(f'<defs><marker id="{name}" viewBox="0 0 8 8" {place}>{shape}</marker></defs>')
        return name

    def measure(self, x1: float, x2: float, y: float, words: str, stroke: str = BLUE, below: bool = True) -> None:
        """A line with ends from x1 to x2, and words at its middle."""
        for x in x1, x2:
            self.line(x, y - 4, x, y + 4, stroke)
        self.line(x1, y, x2, y, stroke)
        self.text((x1 + x2) / 2, y + 17 if below else y - 8, words, "middle", fill=stroke)

    def svg(self) -> str:
        """The text of the image."""
        letters = 'font-family="sans-serif" font-size="13"'
        return "\n".join([
            f'<svg xmlns="http://www.w3.org/2000/svg" viewBox="0 0 {self.width} {self.height}" {letters}>',
            f'<rect width="{self.width}" height="{self.height}" fill="white"/>',
            *self.parts,
            "</svg>\n",
        ])


class Lane:
    """A lane of a drawing: cells of one size from left to right."""

    def __init__(self, drawing: Drawing, x: float, y: float, cells: int, size: float = 30, fastest: int = 5) -> None:
        self.drawing, self.x, self.y, self.cells, self.size, self.fastest = drawing, x, y, cells, size, fastest
        for cell in range(cells):
            drawing.box(x + cell * size, y, size, size, round_by=0)

    def left(self, cell: float) -> float:
        """The x coordinate at which a cell begins."""
        return self.x + cell * self.size

    def middle(self, cell: float) -> float:
        """The x coordinate of a cell's middle."""
        return self.left(cell + 0.5)

    def car(self, cell: int, speed: int, mark: Optional[str] = None) -> None:
        """A car with its speed, in a frame of the colour `mark` if it is stressed."""
        room, side = self.size * 0.1, self.size * 0.8
        fill = colour(speed, self.fastest)
        self.drawing.box(self.left(cell) + room, self.y + room, side, side, fill, mark or fill, 5, 3 if mark else 1)
        brightness = sum(share * part for share, part in zip(BRIGHTNESS, shades(speed, self.fastest)))
        ink = "white" if brightness < DARK else INK
        self.drawing.text(self.middle(cell), self.y + self.size * 0.66, str(speed), "middle", self.size * 0.5, ink, "bold")
