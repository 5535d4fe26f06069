"""The windows of a series: `--every 6 --from 1` for a job of 20 steps."""
from .svg import BLUE, FRAME, INK, SMALL, Drawing

STEPS, EVERY, FROM = 20, 6, 1
# The boxes of steps: the left edge of the first, and the width, upper edge and height of all.
LEFT, WIDTH, TOP, HEIGHT = 40, 32, 76, 30
# The colours of every other window.
WINDOW_FILLS = "#d6e8f5", "#eaf3fa"


def draw_step(drawing: Drawing, step: int) -> None:
    """The box of a step, in the colour of its window or white."""
    window = (step - FROM) // EVERY
    is_counted = FROM <= step and FROM + (window + 1) * EVERY <= STEPS
    drawing.box(LEFT + WIDTH * step, TOP, WIDTH, HEIGHT, WINDOW_FILLS[window % 2] if is_counted else "white", FRAME, 0)
    drawing.text(LEFT + WIDTH * (step + 0.5), TOP + 20, str(step), "middle", SMALL, INK if is_counted else "#909090")


def draw() -> str:
    """The steps with the windows above them, and the rows of the table below."""
    drawing = Drawing(2 * LEFT + WIDTH * STEPS, 156)
    drawing.code(LEFT, 24, f"steps {STEPS}:  trlab series --every {EVERY} --from {FROM}")
    for step in range(STEPS):
        draw_step(drawing, step)
    for end in range(FROM + EVERY, STEPS + 1, EVERY):
        left, right = LEFT + WIDTH * (end - EVERY), LEFT + WIDTH * end
        drawing.measure(left + 3, right - 3, TOP - 14, f"window of {EVERY} steps", below=False)
        drawing.arrow(right, TOP + HEIGHT + 2, right, TOP + 50, BLUE)
        drawing.text(right, TOP + 66, f"row with step {end}", "middle", fill=BLUE)
    drawing.text(LEFT, TOP + 66, "grey: not counted", "start", SMALL, "#707070")
    return drawing.svg()
