"""The facts that the verifier knows on the two paths of examples/keep_distance.rule."""
from .svg import BLUE, FRAME, GREEN, INK, SMALL, Drawing

# The middles of the common path, and of those after a jump and without it.
CENTRE, LEFT, RIGHT = 380, 190, 590
# The width of the frames, and the distances between the lines of code and of facts.
WIDTH, CODE_LINE, FACT_LINE = 200, 19, 18
# Arrows between frames: their length, and the distance between the frames.
ARROW, BETWEEN = 26, 28
TRUNK = ["get r0, speed", "num r1, 1", "add r0, r0, r1", "get r2, limit", "min r0, r0, r2", "get r2, gap"]


def block(drawing: Drawing, middle: float, top: float, lines: list[str]) -> float:
    """Draws instructions in a frame, and returns the y coordinate of its lower edge."""
    height = 14 + CODE_LINE * len(lines)
    drawing.box(middle - WIDTH / 2, top, WIDTH, height, "#f6f6f6", FRAME)
    for place, line in enumerate(lines):
        drawing.code(middle - WIDTH / 2 + 16, top + 21 + CODE_LINE * place, line)
    return top + height


def known(drawing: Drawing, x: float, y: float, facts: list[str], anchor: str = "start") -> None:
    """Facts that the verifier knows, one per line."""
    for place, fact in enumerate(facts):
        drawing.text(x, y + FACT_LINE * place, fact, anchor, fill=BLUE)


def needed(drawing: Drawing, middle: float, top: float, facts: list[str]) -> None:
    """Facts that the instruction above needs, with the sign that they are known."""
    for place, fact in enumerate(facts):
        drawing.text(middle, top + 20 + FACT_LINE * place, f"{fact}  ✓", "middle", fill=GREEN, weight="bold")


def trunk(drawing: Drawing) -> float:
    """The common path up to the jump; returns the y coordinate of its end."""
    right_of_code, first_line = CENTRE + WIDTH / 2 + 16, 42
    end = block(drawing, CENTRE, 20, TRUNK)
    known(drawing, right_of_code, first_line, ["0 ≤ r0 ≤ 35, r0 ≤ limit"])
    known(drawing, right_of_code, first_line + CODE_LINE * 4, ["1 ≤ r0, r0 ≤ limit", "r2 ≤ gap"])
    drawing.arrow(CENTRE, end, CENTRE, end + 22)
    return block(drawing, CENTRE, end + 24, ["jle r1, r2, room"])


def path_without_jump(drawing: Drawing, fork: float) -> None:
    """The path at the right, from the y coordinate `fork` on."""
    end = block(drawing, RIGHT, fork, ["go r2"])
    needed(drawing, RIGHT, end, ["r2 ≤ gap", "r2 ≤ limit"])


def path_after_jump(drawing: Drawing, fork: float) -> None:
    """The path at the left, from the y coordinate `fork` on."""
    end = block(drawing, LEFT, fork, ["room: sub r2, r2, r1"])
    drawing.text(LEFT + WIDTH / 2 + 12, fork + 21, "r1 ≤ r2  ✓", fill=GREEN, weight="bold")
    for facts, instruction in ("r2 < gap", "min r0, r0, r2"), ("r0 ≤ r2, r0 < gap, r0 ≤ limit", "go r0"):
        drawing.arrow(LEFT, end, LEFT, end + ARROW)
        known(drawing, LEFT + 14, end + 18, [facts])
        end = block(drawing, LEFT, end + BETWEEN, [instruction])
    needed(drawing, LEFT, end, ["r0 ≤ gap", "r0 ≤ limit"])


def draw() -> str:
    """The program as a tree of paths, with facts beside the instructions."""
    drawing = Drawing(760, 485)
    end = trunk(drawing)
    fork = end + 68
    for x, words, anchor in (LEFT, "jumps: 1 ≤ gap", "end"), (RIGHT, "goes on: gap < 1", "start"):
        drawing.path(f"M{CENTRE} {end}C{CENTRE} {end + 34} {x} {end + 22} {x} {fork - 2}", INK, head=True)
        drawing.text(x + (-14 if anchor == "end" else 14), end + 26, words, anchor, weight="bold")
    known(drawing, RIGHT + 14, end + 42, ["r2 < r1, r2 < limit", "r2 ≤ gap"])
    known(drawing, LEFT - 14, end + 46, ["r1 ≤ r2, r1 ≤ gap"], "end")
    path_without_jump(drawing, fork)
    path_after_jump(drawing, fork)
    drawing.text(RIGHT, 455, "blue: known for every car on every road", "middle", SMALL, BLUE)
    drawing.text(RIGHT, 474, "green: needed by the instruction, and known", "middle", SMALL, GREEN)
    return drawing.svg()
