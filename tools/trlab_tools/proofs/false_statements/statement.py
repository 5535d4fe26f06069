"""The form of a false statement and its counterexample, and the rules, programs and roads of several counterexamples."""
from typing import NamedTuple, Union

TRAFFIC, CAMPAIGN = "trlab_traffic", "trlab_campaign"


class Job(NamedTuple):
    """A job with `steps` steps, of which those from `warm` on are counted."""

    limit: int
    rule: str
    steps: int
    lanes: tuple[str, ...]
    key: int = 0
    warm: int = 0


class Sweep(NamedTuple):
    """A sweep on one lane with one point."""

    limit: int
    rule: str
    cells: int
    cars: int
    warm: int
    measure: int


class FalseStatement(NamedTuple):
    """A false statement of a law, and its counterexample (see __init__.py). `operator` is an operator of the new text that
    the file does not import."""

    law: str
    file: str
    old: str
    new: str
    runs: tuple[Union[Job, Sweep], ...]
    law_says: str
    false_says: str
    operator: str = ""
    crate: str = TRAFFIC


def job(limit: int, rule: str, steps: int, *lanes: str, key: int = 0, warm: int = 0) -> Job:
    """A job on these lanes."""
    return Job(limit, rule, steps, lanes, key, warm)


def own_rule(motion: str, change: str = "") -> str:
    """A rule of one's own: the lines of its motion program, and of its change program if it has one."""
    return f"own\nmotion\n{motion}\nend" + (f"\nchange\n{change}\nend" if change else "")


# The rule `nasch` with the probabilities 0, 1 and 1/2 of braking.
NO_BRAKING, ALWAYS_BRAKING, HALF_BRAKING = "nasch 0", "nasch 2147483648", "nasch 1073741824"
# The rule whose new speed is min(limit, gap).
GAP_LINES = "get r0, limit\nget r1, gap\nmin r0, r0, r1\ngo r0"
GAP_RULE = own_rule(GAP_LINES)
# Cars change lanes whenever the side cell is empty.
RESTLESS_RULE = own_rule(GAP_LINES, "side r0\njfalse r0, keep\ncross\nkeep: stay")


def leaving_lane_1(*tests: str) -> str:
    """The rule by which the cars of lane 1 change lanes if the side cell is empty and none of these tests jumps to `keep`."""
    is_possible = ["side r0", "jfalse r0, keep", "get r0, lane", "num r1, 1", "jlt r0, r1, keep"]
    return own_rule(GAP_LINES, "\n".join([*is_possible, *tests, "cross", "keep: stay"]))


# A lane change is safe if the gap ahead on the other lane is larger than the speed, and the gap behind at least the limit.
AHEAD = "get r0, sidegap\nget r1, speed\n"
BEHIND = "get r0, sideback\nget r1, limit\n"
SAFE_AHEAD = AHEAD + "jle r0, r1, keep"
SAFE_BEHIND = BEHIND + "jlt r0, r1, keep"
SAFE_RULE = leaving_lane_1(SAFE_AHEAD, SAFE_BEHIND)
# The gap ahead may also be equal to the speed.
UNSAFE_AHEAD_RULE = leaving_lane_1(AHEAD + "jlt r0, r1, keep", SAFE_BEHIND)
# The gap behind may also be one cell less than the limit.
UNSAFE_BEHIND_RULE = leaving_lane_1(SAFE_AHEAD, BEHIND + "num r2, 1\nadd r0, r0, r2\njlt r0, r1, keep")

ONE_STEP = job(1, NO_BRAKING, 1, "0.")
TWO_STEPS = job(1, NO_BRAKING, 2, "0.")
THREE_CELLS = job(1, NO_BRAKING, 1, "0..")
# The next car blocks the first one in step 0. In step 1 the gap allows speed 2, but the first car only reaches speed 1.
BLOCKED = job(2, NO_BRAKING, 2, "01....")
