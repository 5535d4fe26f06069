"""The initial cells of the cars of a sweep on two lanes: all on one lane only if their number divides the length."""
from .svg import GREEN, RED, SMALL, Drawing, Lane

LENGTH, LEFT, SIZE = 10, 90, 34
FADED = "#909090"


def panel(drawing: Drawing, y: float, cars: int, words: str, fill: str) -> None:
    """A road with `cars` evenly spaced cars, and a caption. Empty cells have their number in the order of the two lanes."""
    drawing.text(LEFT, y - 12, f"{cars} cars: {words}", fill=fill, weight="bold")
    lanes = [Lane(drawing, LEFT, y + SIZE * (1 - lane), LENGTH, SIZE) for lane in (0, 1)]
    for number, lane in enumerate(lanes):
        drawing.text(LEFT - 10, lane.y + 22, f"lane {number}", "end")
    taken = {car * 2 * LENGTH // cars for car in range(cars)}
    for number in range(2 * LENGTH):
        cell, lane = number // 2, lanes[number % 2]
        if number in taken:
            lane.car(cell, 0)
        else:
            drawing.text(lane.middle(cell), lane.y + 22, str(number), "middle", SMALL, FADED)


def draw() -> str:
    """A number of cars that divides the length, and one that does not."""
    drawing = Drawing(460, 256)
    panel(drawing, 40, 5, "all start on lane 0, because 5 divides 10", RED)
    panel(drawing, 172, 7, "both lanes are used", GREEN)
    return drawing.svg()
