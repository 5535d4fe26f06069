"""Space-time diagrams with the path of each car as a line. A raster of cells would make fast cars, whose distance is near
their speed, look like a pattern that moves backwards."""
from typing import Dict, Iterator, List, NamedTuple, Tuple

from .panels import BOTTOM, TOP, Panel
from .svg import BLUE, RED, SMALL, Drawing

BLACK = "#000000"
# The signs of speeds in a snapshot, in the order of the speeds.
SIGNS = "0123456789abcdefghijklmnopqrstuvwxyz"
Snapshots = List[List[str]]
# Points of a line: places in cells, and steps.
Piece = List[Tuple[float, float]]


class Move(NamedTuple):
    """The way of a car from a snapshot to the next: its lanes before and after it, its first cell, and its speed."""

    step: int
    before: int
    after: int
    cell: int
    speed: int


def moves(snapshots: Snapshots) -> Iterator[Move]:
    """The way of each car in each step. A car came from its own lane if a car was there, and else from the side cell."""
    for step, (old, new) in enumerate(zip(snapshots, snapshots[1:])):
        for lane, row in enumerate(new):
            for cell, sign in enumerate(row):
                if sign != ".":
                    speed = SIGNS.index(sign)
                    begin = (cell - speed) % len(row)
                    yield Move(step, lane if old[lane][begin] != "." else 1 - lane, lane, begin, speed)


def extend(piece: Piece, place: float, step: float) -> None:
    """Add a point to a line. It replaces the last one if that is between it and the one before."""
    if len(piece) > 1:
        (first, begin), (last, end) = piece[-2:]
        if abs((last - first) * (step - end) - (place - last) * (end - begin)) < 1e-9:
            piece.pop()
    piece.append((place, step))


def pieces(moves: List[Move], cells: int) -> List[Piece]:
    """The lines of cars through a frame: a car that leaves it at the right comes back at the left, on another line."""
    lines: List[Piece] = []
    ends: Dict[Tuple[int, int], Piece] = {}
    for move in moves:
        begin, end = move.cell + 0.5, move.cell + move.speed + 0.5
        piece = ends.get((move.cell, move.step))
        if piece is None or move.before != move.after:
            lines.append(piece := [(begin, float(move.step))])
        if end > cells:
            between = move.step + (cells - begin) / move.speed
            extend(piece, cells, between)
            lines.append(piece := [(0.0, between)])
        extend(piece, end % cells, move.step + 1)
        ends[(move.cell + move.speed) % cells, move.step + 1] = piece
    return lines


class SpaceTime(Panel):
    """A panel with the cells of a lane from left to right, and time from the top down."""

    def __init__(self, drawing: Drawing, place: Tuple[int, int], snapshots: Snapshots) -> None:
        super().__init__(drawing, place)
        self.snapshots, self.cells, self.steps = snapshots, len(snapshots[0][0]), len(snapshots) - 1
        drawing.box(self.left, TOP, self.width, BOTTOM - TOP, "white", "#d0d0d0", 0)

    def across(self, place: float) -> float:
        """The x coordinate of a place in cells."""
        return self.left + self.width * place / self.cells

    def down(self, step: float) -> float:
        """The y coordinate of a step."""
        return TOP + (BOTTOM - TOP) * step / self.steps

    def axes(self, every_cells: int, every_steps: int, has_times: bool = True) -> None:
        """The axis of positions, and that of times unless a panel to the left has it."""
        for cell in range(0, self.cells, every_cells):
            self.tick_below(self.across(cell), str(cell))
        self.title_below("position (cells)")
        if has_times:
            for step in range(0, self.steps + 1, every_steps):
                self.tick_left(self.down(step), str(step))
            self.title_left("time (steps)", 34)

    def path(self, pieces: List[Piece], stroke: str, width: float) -> None:
        """The lines as one path of SVG."""
        lines = ("M" + " ".join(f"{self.across(place):.1f} {self.down(step):.1f}" for place, step in piece) for piece in pieces)
        self.drawing.path("".join(lines), stroke, width)

    def paths(self, lane: int = 0) -> None:
        """The paths of the cars on a lane: blue if they move, red if they are stopped, with a circle at each lane change."""
        on_lane = [move for move in moves(self.snapshots) if move.after == lane]
        self.path(pieces(on_lane, self.cells), BLUE, 1)
        self.path(pieces([move for move in on_lane if move.speed == 0], self.cells), RED, 1.8)
        for move in on_lane:
            if move.before != lane:
                self.drawing.circle(self.across(move.cell + 0.5), self.down(move.step), 2.6, BLACK)


def legend(drawing: Drawing, left: float, y: float, has_changes: bool = False) -> None:
    """The meaning of blue and red lines, and of circles if there are lane changes, on the line y."""
    drawing.sample(left, y, 20, BLUE)
    drawing.text(left + 25, y, "a moving car", size=SMALL)
    drawing.sample(left + 112, y, 20, RED, 2.5)
    drawing.text(left + 137, y, "a stopped car", size=SMALL)
    if has_changes:
        drawing.circle(left + 236, y - 4, 3, BLACK)
        drawing.text(left + 246, y, "a car comes from the other lane", size=SMALL)
