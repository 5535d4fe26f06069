"""A lane change: the distances that a car sees, and the conditions of `rule rickert`."""
from .svg import GREEN, INK, Drawing, Lane

CELLS, LIMIT, SPEED = 20, 5, 3
# The cells of the car that changes lanes, the car ahead of it, and those behind and ahead on the other lane.
CAR, AHEAD, SIDE_BEHIND, SIDE_AHEAD = 9, 12, 2, 17
GAP, SIDEGAP, SIDEBACK = AHEAD - CAR - 1, SIDE_AHEAD - CAR - 1, CAR - SIDE_BEHIND - 1
# The speeds of the other cars, by cell.
UPPER_SPEEDS = {SIDE_BEHIND: 5, SIDE_AHEAD: 4}
LOWER_SPEEDS = {1: 4, AHEAD: 1, 18: 2}
# The x coordinate of each condition, the condition, and its case in the drawing.
CONDITIONS = (
    (80, "the side cell is empty", "it is"),
    (270, "gap ≤ speed", f"{GAP} ≤ {SPEED}"),
    (390, "sidegap ≥ speed + 2", f"{SIDEGAP} ≥ {SPEED + 2}"),
    (550, "sideback > limit", f"{SIDEBACK} > {LIMIT}"),
)


def distances(drawing: Drawing, upper: Lane, lower: Lane) -> None:
    """The distances of the car on its lane and on the other one, and the side cell."""
    drawing.measure(lower.left(CAR + 1) + 2, lower.left(AHEAD) - 2, lower.y + 45, f"gap = {GAP}")
    drawing.measure(upper.left(CAR + 1) + 2, upper.left(SIDE_AHEAD) - 2, upper.y - 14, f"sidegap = {SIDEGAP}", below=False)
    drawing.measure(upper.left(SIDE_BEHIND + 1) + 2, upper.left(CAR) - 2, upper.y - 14, f"sideback = {SIDEBACK}", below=False)
    drawing.text(upper.middle(CAR), 26, "side cell", "middle", fill=GREEN)
    drawing.arrow(upper.middle(CAR), 32, upper.middle(CAR), upper.y - 3, GREEN)


def draw() -> str:
    """Two lanes with the car that changes, and below them the conditions."""
    drawing = Drawing(760, 300)
    upper = Lane(drawing, 80, 70, CELLS)
    lower = Lane(drawing, 80, 130, CELLS)
    for lane, name in (upper, "lane 1"), (lower, "lane 0"):
        drawing.text(70, lane.y + 20, name, "end")
    drawing.box(upper.left(CAR), upper.y, upper.size, upper.size, "#d9f2e6", GREEN, 0, 2)
    for lane, speeds in (upper, UPPER_SPEEDS), (lower, LOWER_SPEEDS):
        for cell, speed in speeds.items():
            lane.car(cell, speed)
    lower.car(CAR, SPEED, INK)
    drawing.arrow(lower.middle(CAR), lower.y + 2, upper.middle(CAR), upper.y + upper.size - 5, GREEN, 2.5)
    distances(drawing, upper, lower)
    drawing.text(80, 228, f"rule rickert, limit {LIMIT}: the car changes lanes with probability c if", weight="bold")
    for x, condition, case in CONDITIONS:
        drawing.text(x, 254, condition)
        drawing.text(x, 274, f"{case}  ✓", fill=GREEN)
    return drawing.svg()
