"""Kinematic waves: without randomization the pattern of a relaxed lane moves ahead at v_max in free flow, and back by one
cell per step in a jam."""
from .runs import rows
from .svg import INK, SMALL, Drawing, colour

LIMIT, CELLS, STEPS = 3, 40, 34
# The width and the height of a cell, and the upper edge of the panels, with the size of both.
SIZE, TOP = 7, 44
WIDTH, HEIGHT = SIZE * CELLS, SIZE * (STEPS + 1)
# A green that is lighter than the colours of cars.
MARK = "#00b060"
FREE = "000..0...1........2.....0..............."
JAM = "0000000.0000.0...0......0.........0....."


def relaxed_from(lane: str) -> int:
    """The step from which on `nasch 0` has relaxed: v - 1 + min(N, E / v), and at least v."""
    empty = lane.count(".")
    return max(LIMIT, LIMIT - 1 + -(-min(LIMIT * (CELLS - empty), empty) // LIMIT))


def characteristics(drawing: Drawing, left: float, row: str, first: int, ahead: int) -> None:
    """Lines along which the pattern moves, from the step `first` with this row on, through every second head of a cluster."""
    heads = [cell for cell in range(CELLS) if row[cell] != "." and row[(cell + 1) % CELLS] == "."]
    for start in (head + CELLS * lap for head in heads[::2] for lap in range(-3, 3)):
        ends = [(step, start + 0.5 + ahead * (step - first)) for step in range(first, STEPS + 1)]
        inside = [(left + SIZE * cell, TOP + SIZE * (step + 0.5)) for step, cell in ends if 0 <= cell <= CELLS]
        if len(inside) > 1:
            drawing.polyline([inside[0], inside[-1]], MARK, 1.6)


def panel(drawing: Drawing, left: float, lane: str, ahead: int, words: str) -> None:
    """The space-time diagram of a lane, with a dashed line at the step at which it has relaxed. From there on the pattern moves
    by `ahead` cells per step, backwards if this is negative."""
    first = relaxed_from(lane)
    drawing.text(left + WIDTH / 2, TOP - 24, words, "middle", weight="bold")
    drawing.text(left + WIDTH / 2, TOP - 8, "position (cells)", "middle", SMALL)
    drawing.box(left, TOP, WIDTH, HEIGHT, "white", "#d0d0d0", 0)
    snapshots = rows(LIMIT, lane, ["rule nasch 0"], STEPS)
    for speed in range(LIMIT + 1):
        places = [(cell, step) for step, row in enumerate(snapshots) for cell, sign in enumerate(row) if sign == str(speed)]
        drawing.boxes([(left + SIZE * cell, TOP + SIZE * step) for cell, step in places], SIZE, colour(speed, LIMIT))
    characteristics(drawing, left, snapshots[first], first, ahead)
    level = TOP + SIZE * first
    drawing.path(f"M{left - 8:.1f} {level:.1f}H{left + WIDTH:.1f}", INK, 1.2, dashes="4 3")
    drawing.text(left - 10, level + 4, f"step {first}", "end", SMALL)
    for step in 0, STEPS:
        drawing.text(left - 10, TOP + SIZE * (step + 0.5) + 4, str(step), "end", SMALL)


def legend(drawing: Drawing, left: float, y: float) -> None:
    """The colours of speeds, and the sign of a characteristic line, on the line y."""
    drawing.text(left, y, "speed", size=SMALL)
    for speed in range(LIMIT + 1):
        x = left + 44 + 34 * speed
        drawing.box(x, y - 9, 10, 10, colour(speed, LIMIT), "none", 0)
        drawing.text(x + 14, y, str(speed), size=SMALL)
    drawing.sample(left + 196, y, 24, MARK, 1.6)
    drawing.text(left + 226, y, "characteristic lines of a relaxed lane", size=SMALL)


def draw() -> str:
    """A panel of free flow, and one of a jam."""
    drawing = Drawing(704, TOP + HEIGHT + 32)
    panel(drawing, 64, FREE, LIMIT, "free flow: ahead by 3 cells per step")
    panel(drawing, 410, JAM, -1, "a jam: back by 1 cell per step")
    drawing.text(20, TOP + SIZE * STEPS / 2, "time (steps)", "middle", SMALL, turned=True)
    legend(drawing, 64, TOP + HEIGHT + 22)
    return drawing.svg()
