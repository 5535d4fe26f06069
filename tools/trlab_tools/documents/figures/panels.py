"""The panels of the figures that show space-time diagrams beside a fundamental diagram."""

from .svg import SMALL, Drawing

# The width and the height of these figures, and the y coordinates of their titles, the edges of the panels, and the legend.
SIZE = 760, 330
TITLE, TOP, BOTTOM, LEGEND = 22, 34, 264, 322
# The left edges and the widths of three panels beside each other.
PANELS = (56, 190), (262, 190), (532, 214)


class Panel:
    """A panel with ticks and titles along its left and lower edges."""

    def __init__(self, drawing: Drawing, place: tuple[int, int]) -> None:
        self.drawing = drawing
        self.left, self.width = place

    def tick_below(self, x: float, words: str) -> None:
        """A mark at the lower edge, and its value."""
        self.drawing.line(x, BOTTOM, x, BOTTOM + 4)
        self.drawing.text(x, BOTTOM + 17, words, "middle", SMALL)

    def tick_left(self, y: float, words: str) -> None:
        """A mark at the left edge, and its value."""
        self.drawing.line(self.left - 4, y, self.left, y)
        self.drawing.text(self.left - 7, y + 4, words, "end", SMALL)

    def title_below(self, words: str) -> None:
        """The title of the horizontal axis."""
        self.drawing.text(self.left + self.width / 2, BOTTOM + 34, words, "middle", SMALL)

    def title_left(self, words: str, distance: float) -> None:
        """The title of the vertical axis, at a distance from it that the widest value leaves free."""
        self.drawing.text(self.left - distance, (TOP + BOTTOM) / 2, words, "middle", SMALL, turned=True)

    def title(self, words: str) -> None:
        """The title above the panel."""
        self.drawing.text(self.left, TITLE, words, weight="bold")
