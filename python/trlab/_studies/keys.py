"""Keys of named values: the same parameters have the same random numbers, in any study and at any time."""
from __future__ import annotations

import json
import math
from fractions import Fraction
from hashlib import sha256
from numbers import Rational, Real
from typing import Union

from .._errors import ParameterError


def key_for(**parameters: Union[int, float, str, Fraction]) -> str:
    """The key of named values, 64 hexadecimal digits: the SHA-256 of one line `name=value` for each parameter, sorted
    by name, each with a line feed. A value is a fraction in lowest terms (`3`, `1/4`, also for 0.25), or a JSON string
    in ASCII. Raises `ParameterError` for other values."""
    lines = [f"{name}={written(name, value)}\n" for name, value in sorted(parameters.items())]
    return sha256("".join(lines).encode()).hexdigest()


def written(name: str, value: object) -> str:
    """A value in the line of a key."""
    if isinstance(value, str):
        return json.dumps(value)
    if not isinstance(value, Real) or not math.isfinite(value):
        raise ParameterError(
            f"{name} must have numbers or texts as values, or a mapping of names to values, not {value!r}"
        )
    return str(as_fraction(value))


def as_fraction(value: object) -> Fraction:
    """A number, also of numpy, or its text as a fraction of Python numbers. Raises `ValueError` if it is neither."""
    try:
        if isinstance(value, Rational):
            return Fraction(int(value.numerator), int(value.denominator))
        return Fraction(value) if isinstance(value, str) else Fraction(float(value))  # type: ignore[arg-type]
    except (TypeError, OverflowError, ZeroDivisionError):
        raise ValueError(f"{value!r} is not a number") from None
