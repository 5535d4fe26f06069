"""Random small jobs for property tests, with `hypothesis`."""
import importlib.util
import unittest
from collections.abc import Callable
from typing import Any, TypeVar

from trlab import Job, Nasch, Rickert, Rule, SlowToStart, random_cells

Test = TypeVar("Test", bound=Callable[..., Any])
Decorator = Callable[[Callable[..., None]], Callable[..., None]]
"""A decorator of tests: one of hypothesis, or `needs_hypothesis`."""

if importlib.util.find_spec("hypothesis"):
    from hypothesis import settings, strategies as some

    EXAMPLES: Decorator = settings(max_examples=60, deadline=None, database=None, derandomize=True)

    @some.composite
    def jobs(draw: Callable[[Any], Any], steps: int) -> Job:
        """A job of this number of steps. Most roads have some cars and some space; a density of a float would often be
        0 or 1."""
        lanes, length = draw(some.integers(1, 2)), draw(some.integers(2, 45) | some.integers(1, 3))
        cars = lanes * length * draw(some.integers(1, 19) | some.integers(0, 20)) // 20
        rules: list[Rule] = [Rickert("1/4", "3/4")] if lanes == 2 else [Nasch("1/4"), SlowToStart("1/64", "1/2")]
        speed, seed = draw(some.sampled_from([0, None])), draw(some.integers(0, 999))
        return Job(
            limit=draw(some.integers(2, 9) | some.integers(1, 35)), length=length, lanes=lanes, cars=cars, steps=steps,
            key=seed,
            rule=draw(some.sampled_from(rules)), start=random_cells(seed, speed),
        )


def length_of(job: Job) -> int:
    """The length of a job's lanes. Every job has one after its construction, also if it was made without `length`."""
    assert job.length is not None
    return job.length


def needs_hypothesis(test: Test) -> Test:
    """Skip a test, or all tests of a class, if hypothesis is not installed."""
    return unittest.skipUnless(importlib.util.find_spec("hypothesis"), "hypothesis is not installed")(test)
