"""The lines of input files, and the arguments of command lines."""
from __future__ import annotations

from collections.abc import Sequence
from math import isqrt
from typing import NamedTuple

from .._errors import ParameterError
from .numbers import MAX_STEPS, MAX_THREADS, checked_int


def input_text(lines: Sequence[str]) -> str:
    """The text of an input file with these lines."""
    return "".join(line + "\n" for line in lines)


def option(name: str, number: int, default: int) -> list[str]:
    """The arguments of an option; none for its default value."""
    return [] if number == default else [f"--{name}", str(number)]


class RunOptions(NamedTuple):
    """The steps that a run shows, from `first` on, and its number of threads. All numbers are checked."""

    every: int
    first: int
    workers: int

    @classmethod
    def of_snapshots(cls, steps: int, every: object, first: object, workers: object) -> RunOptions:
        """Raises `ParameterError` if a number is not possible for a run of this number of steps."""
        return cls(
            workers=checked_int("workers", workers, 1, MAX_THREADS),
            every=checked_int("every", every, 1, max(MAX_STEPS, steps)),
            first=checked_int("first", first, 0, steps),
        )

    @classmethod
    def of_windows(cls, steps: int, every: object, first: object, workers: object) -> RunOptions:
        """As `of_snapshots`, for windows. Raises `ParameterError` with numbers that fit if the steps from `first` on
        are not whole windows."""
        options = cls.of_snapshots(steps, every, first, workers)
        counted = steps - options.first
        remainder = counted % options.every
        if counted < options.every:
            advice = f"`every` can be at most {counted}" if counted else "a job needs steps to have windows"
            raise ParameterError(
                f"no window of {options.every} steps fits into the {counted} steps from step {options.first} on: "
                f"{advice}"
            )
        if remainder:
            raise ParameterError(
                f"the {counted} steps from step {options.first} on are not whole windows of {options.every} steps: use "
                f"first={options.first + remainder}, or every={_nearest_divisor(counted, options.every)}, or a job of "
                f"{steps - remainder} or {steps - remainder + options.every} steps"
            )
        return options

    def arguments(self) -> list[str]:
        """The options of `trlab run` and `trlab series`."""
        return option("every", self.every, 1) + option("from", self.first, 0) + option("workers", self.workers, 1)


def _nearest_divisor(number: int, target: int) -> int:
    """The divisor of a number that is nearest to a target."""
    small = [divisor for divisor in range(1, min(isqrt(number), 10**6) + 1) if number % divisor == 0]
    return min([*small, *(number // divisor for divisor in small)], key=lambda divisor: abs(divisor - target))
