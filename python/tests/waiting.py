"""Waiting for a condition. No test depends on elapsed time: the only limit is for a call that hangs."""
import time
from collections.abc import Callable
from typing import Optional, TypeVar

Value = TypeVar("Value")
LIMIT = 900  # seconds, because other work may slow everything down
SHORTEST, LONGEST = 0.02, 0.3  # between two looks, in seconds: a slow machine is not kept busy with them


def holds(condition: Callable[[], object]) -> bool:
    """Whether a condition comes true before the limit."""
    end, rest = time.monotonic() + LIMIT, SHORTEST
    while not condition():
        if time.monotonic() > end:
            return False
        time.sleep(rest)
        rest = min(1.2 * rest, LONGEST)
    return True


def first_of(call: Callable[[], Optional[Value]]) -> Value:
    """The first value of a repeated call that is not None."""
    values: list[Value] = []

    def has_come() -> bool:
        values.extend(value for value in [call()] if value is not None)
        return bool(values)

    if not holds(has_come):
        raise TimeoutError("nothing came before the limit")
    return values[0]
