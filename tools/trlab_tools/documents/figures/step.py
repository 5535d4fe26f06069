"""One step of the Nagel-Schreckenberg model, row by row."""
from typing import NamedTuple

from .svg import INK, SMALL, Drawing, Lane

CELLS, LIMIT = 20, 5
# The cells of the cars, their speeds, and which of them brake at random.
CELLS_OF_CARS = [1, 6, 10, 12, 17]
SPEEDS = [4, 3, 2, 0, 5]
BRAKING = {1}
# The left edge of the lanes, the upper edge of the first, and the distance to the next.
LEFT, TOP, ROW = 180, 20, 62


class Stage(NamedTuple):
    """A row of the drawing: the cars after a part of the step."""

    name: str
    remark: str
    cells: list[int]
    speeds: list[int]


def gap_of(car: int, cells: list[int]) -> int:
    """The empty cells ahead of a car on the ring."""
    return (cells[(car + 1) % len(cells)] - cells[car] - 1) % CELLS


def stages() -> list[Stage]:
    """The road before the step, and after each of its four parts."""
    cells = CELLS_OF_CARS
    faster = [min(speed + 1, LIMIT) for speed in SPEEDS]
    safe = [min(speed, gap_of(car, cells)) for car, speed in enumerate(faster)]
    braked = [max(speed - 1, 0) if car in BRAKING else speed for car, speed in enumerate(safe)]
    moved = [(cell + speed) % CELLS for cell, speed in zip(cells, braked)]
    return [
        Stage("the road at step t", "", cells, SPEEDS),
        Stage("1. speed up", "by one, at most to the limit", cells, faster),
        Stage("2. slow down", "to the gap", cells, safe),
        Stage("3. brake at random", "by one, with probability p", cells, braked),
        Stage("4. move: step t + 1", "all cars at once", moved, braked),
    ]


def hop(drawing: Drawing, lane: Lane, begin: float, end: float) -> None:
    """An arrow above a lane from one place to another, or past the end of the ring to its beginning."""
    y = lane.y - 5
    if end > begin:
        drawing.path(f"M{begin:.1f} {y:.1f}q{(end - begin) / 2:.1f} -17 {end - begin:.1f} 2", INK, 1.2, head=True)
    else:
        past_end, before_start = lane.left(CELLS) + 16, lane.left(0) - 4
        drawing.path(f"M{begin:.1f} {y:.1f}Q{begin + 40:.1f} {y - 15:.1f} {past_end:.1f} {y - 11:.1f}", INK, 1.2, head=True)
        drawing.path(f"M{before_start:.1f} {y - 9:.1f}Q{end - 10:.1f} {y - 9:.1f} {end:.1f} {y + 2:.1f}", INK, 1.2, head=True)


def draw() -> str:
    """A lane per stage; speeds that a stage changes are in a frame, and moves have arrows."""
    drawing = Drawing(800, 330)
    speeds_before = SPEEDS
    for place, stage in enumerate(stages()):
        lane = Lane(drawing, LEFT, TOP + ROW * place, CELLS)
        drawing.text(LEFT - 10, lane.y + (14 if stage.remark else 20), stage.name, "end", weight="bold")
        drawing.text(LEFT - 10, lane.y + 30, stage.remark, "end", SMALL)
        for begin, cell, speed, before in zip(CELLS_OF_CARS, stage.cells, stage.speeds, speeds_before):
            lane.car(cell, speed, INK if speed != before else None)
            if cell != begin:
                hop(drawing, lane, lane.middle(begin), lane.middle(cell))
        speeds_before = stage.speeds
    return drawing.svg()
