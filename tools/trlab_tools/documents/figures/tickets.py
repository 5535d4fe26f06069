"""Three workers share the segments of a road by tickets."""
from .svg import FRAME, SMALL, Drawing

# The boxes of segments and answers: the left edge of the first, width, height, and the upper edges of both rows.
LEFT, WIDTH, HEIGHT, SEGMENTS, ANSWERS = 60, 76, 38, 40, 290
# The boxes of workers: their middles, width, height and upper edge.
MIDDLES, WORKER_WIDTH, WORKER_HEIGHT, WORKER_TOP = (160, 364, 568), 170, 86, 140
COLOURS = "#0072b2", "#e08b00", "#00805c"
TINTS = "#d6e8f5", "#fbe8c8", "#d3eee3"
# Which worker draws each ticket.
DRAWN = (0, 1, 2, 1, 0, 2, 2, 0)


def row(drawing: Drawing, y: float, title: str, name: str) -> None:
    """A row of boxes with a name and a number, each in the colour of its worker."""
    drawing.text(LEFT, y - 10, title, weight="bold")
    for number, worker in enumerate(DRAWN):
        x = LEFT + number * WIDTH
        drawing.box(x, y, WIDTH, HEIGHT, TINTS[worker], COLOURS[worker], 0)
        drawing.text(x + WIDTH / 2, y + 24, f"{name} {number}", "middle", SMALL)


def joined(drawing: Drawing, x1: float, y1: float, x2: float, y2: float, stroke: str) -> None:
    """A curved arrow from above to below."""
    middle = (y1 + y2) / 2
    drawing.path(f"M{x1:.1f} {y1}C{x1:.1f} {middle} {x2:.1f} {middle} {x2:.1f} {y2}", stroke, 1.3, head=True)


def draw_worker(drawing: Drawing, worker: int) -> None:
    """The box of a worker, with the tickets that it has drawn."""
    middle, colour = MIDDLES[worker], COLOURS[worker]
    tickets = ", ".join(str(number) for number, drawn_by in enumerate(DRAWN) if drawn_by == worker)
    drawing.box(middle - WORKER_WIDTH / 2, WORKER_TOP, WORKER_WIDTH, WORKER_HEIGHT, "white", colour, 6, 2)
    drawing.text(middle, WORKER_TOP + 24, f"worker {worker}", "middle", fill=colour, weight="bold")
    drawing.text(middle, WORKER_TOP + 48, f"has drawn {tickets}", "middle")
    drawing.text(middle, WORKER_TOP + 70, "asks these cars", "middle", SMALL)


def draw() -> str:
    """The segments above, the workers below them, and the answers at the bottom, with arrows."""
    drawing = Drawing(740, 410)
    row(drawing, SEGMENTS, "the cars of a road, cut into segments", "segment")
    for number, worker in enumerate(DRAWN):
        middle = LEFT + (number + 0.5) * WIDTH
        joined(drawing, middle, SEGMENTS + HEIGHT + 2, MIDDLES[worker], WORKER_TOP - 2, COLOURS[worker])
        joined(drawing, MIDDLES[worker], WORKER_TOP + WORKER_HEIGHT, middle, ANSWERS - 2, COLOURS[worker])
    for worker in range(len(MIDDLES)):
        draw_worker(drawing, worker)
    row(drawing, ANSWERS, "", "answers")
    drawing.text(LEFT, 352, "in ticket order: the same answers as from one worker, however tickets were drawn", weight="bold")
    drawing.box(LEFT, 370, 150, 28, "#f6f6f6", FRAME)
    drawing.text(LEFT + 75, 389, "next ticket", "middle")
    drawing.text(LEFT + 162, 389, "the only number that all workers write: each draw adds 1 in one atomic step")
    return drawing.svg()
