"""The minimum principle: the path of a car is the lowest of the lines that the cars ahead allow it."""
from typing import List

from .runs import rows
from .svg import BLUE, GREEN, RED, SMALL, Drawing

LIMIT, LANE, STEPS = 3, "000.0..0.0..............", 9
RULE = ["rule own", "motion", "get r0, limit", "get r1, gap", "min r0, r0, r1", "go r0", "end"]
# The edges of the frame, and the place in cells at its upper edge.
LEFT, RIGHT, TOP, BOTTOM = 64, 580, 20, 400
HIGHEST = 28
DASHES = "4 3"
FADED = "#a0a0a0"


def x(time: float) -> float:
    """The x coordinate of a time in steps."""
    return LEFT + (RIGHT - LEFT) * time / STEPS


def y(cell: float) -> float:
    """The y coordinate of a place in cells."""
    return BOTTOM - (BOTTOM - TOP) * cell / HIGHEST


def paths() -> List[List[int]]:
    """For each car its places by step, not wrapped round the ring. Cars never overtake, so that a car that leaves the last
    cell is the first one of the next row."""
    first, *later = rows(LIMIT, LANE, RULE, STEPS)
    cells = [cell for cell, sign in enumerate(first) if sign != "."]
    paths_by_car = [[cell] for cell in cells]
    for row in later:
        speed_from = {(cell - int(sign)) % len(row): int(sign) for cell, sign in enumerate(row) if sign != "."}
        for path in paths_by_car:
            path.append(path[-1] + speed_from[path[-1] % len(row)])
    return paths_by_car


def axes(drawing: Drawing) -> None:
    """The times below the frame, and every fifth place at its left."""
    for time in range(STEPS + 1):
        drawing.line(x(time), BOTTOM, x(time), BOTTOM + 5)
        drawing.text(x(time), BOTTOM + 19, str(time), "middle")
    for cell in range(0, HIGHEST + 1, 5):
        drawing.line(LEFT - 5, y(cell), LEFT, y(cell))
        drawing.text(LEFT - 9, y(cell) + 4.5, str(cell), "end")
    drawing.line(LEFT, BOTTOM, RIGHT, BOTTOM)
    drawing.line(LEFT, BOTTOM, LEFT, TOP)
    drawing.text((LEFT + RIGHT) / 2, BOTTOM + 40, "time (steps)", "middle")
    drawing.text(22, (TOP + BOTTOM) / 2, "place (cells ahead of the last car's start)", "middle", turned=True)


def bounds(drawing: Drawing, starts: List[int]) -> None:
    """For the last car and each car ahead: a wave from the place of the car ahead, back by one cell per step and so one step per
    car, and from there the line of a car at v_max."""
    for ahead, start in enumerate(starts):
        wave_ends = x(ahead), y(start - ahead)
        end = min(STEPS, ahead + (HIGHEST - (start - ahead)) / LIMIT)
        line_ends = x(end), y(start - ahead + LIMIT * (end - ahead))
        if ahead:
            drawing.polyline([(x(0), y(start)), wave_ends], RED, 1.3, dashes=DASHES)
        drawing.polyline([wave_ends, line_ends], GREEN, 1.3)
        drawing.text(line_ends[0] + 9, line_ends[1] + 4.5, f"j = {ahead}", size=SMALL, fill=GREEN)


def path(drawing: Drawing, places: List[int], stroke: str, width: float, radius: float) -> None:
    """The path of a car, as far as the axes go."""
    points = [(x(time), y(place)) for time, place in enumerate(places) if place <= HIGHEST]
    drawing.polyline(points, stroke, width)
    for point in points:
        drawing.circle(*point, radius, stroke)


def legend(drawing: Drawing) -> None:
    """The meaning of the lines, in two rows of two."""
    meanings = {
        BLUE: "the last car: the lowest of the lines j = 0, 1, ..", FADED: "the cars ahead of it",
        GREEN: "a line j: v_max, from step j on", RED: "the j-th car ahead, felt a step later per car",
    }
    for place, (stroke, words) in enumerate(meanings.items()):
        row, column = divmod(place, 2)
        left, line = LEFT - 40 + 310 * column, BOTTOM + 66 + 20 * row
        drawing.sample(left, line, 22, stroke, 2.5 if stroke == BLUE else 1.5, DASHES if stroke == RED else "")
        drawing.text(left + 28, line, words, size=SMALL)


def draw() -> str:
    """The paths of all cars, and the lines that bound that of the last one."""
    drawing = Drawing(640, 500)
    axes(drawing)
    last, *others = paths()
    for places in others:
        path(drawing, places, FADED, 1.5, 3)
    bounds(drawing, [last[0], *(places[0] for places in others)])
    path(drawing, last, BLUE, 2.5, 5)
    legend(drawing)
    return drawing.svg()
