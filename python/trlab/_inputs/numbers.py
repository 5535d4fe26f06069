"""Numbers as you write them, checked and stored as Python's own; and the numbers of input files."""
from __future__ import annotations

import hashlib
import math
import operator
import re
from decimal import Decimal
from enum import Enum
from fractions import Fraction
from numbers import Integral, Rational
from typing import Any, Optional, SupportsFloat, Union

from .._errors import ParameterError

Probability = Union[SupportsFloat, str]
"""A probability, 0 to 1: `0.25`, `"1/4"`, `"0.25"`, a `Fraction`, a `Decimal` or a number of numpy. It is stored as an
`int`, a `float` or a `Fraction`."""

Density = Probability
"""Cars per cell, 0 to 1, written like a probability."""

Key = Union[int, str]
"""The seed of the random numbers: a whole number from 0 to 2**256 - 1, or 64 hexadecimal digits. A derived key, for
example from `trlab part KEY 3`, is the SHA-256 of these ASCII characters. KEY has 64 lower-case hexadecimal digits
there, and the number is decimal."""

ALWAYS = 2**31
"""The probability 1 in input files, where each probability is a multiple of 1 / 2**31."""

MAX_CELLS = 100000
"""The maximum length of a lane, in cells."""

MAX_SPEED = 35
"""The maximum speed limit, in cells per step."""

MAX_STEPS = 500000
"""The maximum number of steps of one input."""

MAX_POINTS = 200
"""The maximum number of points of one input."""

MAX_ALL_STEPS = 10**15
"""The maximum number of steps of a job, whose inputs have at most `MAX_STEPS` each; it would take months."""

MAX_KEY = 2**256 - 1
"""The maximum key, and the maximum seed of random cells."""

MAX_THREADS = 16
"""The maximum number of workers and of runners."""

# Longer numbers, and larger exponents, would take minutes to convert into a fraction.
_NUMBER = re.compile(r"\s*[-+]?(?:\d+/\d+|(?:\d+\.?\d*|\.\d+)(?:e[-+]?\d{1,3})?)\s*", re.ASCII | re.IGNORECASE)
_MAX_CHARACTERS = 4000


def checked_int(name: str, number: object, minimum: int, maximum: Optional[int] = None) -> int:
    """A whole number in its range, as Python's `int`. Raises `ParameterError`, which names it, if it is anything else:
    floats, booleans and members of an enumeration are not whole numbers."""
    value = _as_int(number)
    shown_maximum = "2**256 - 1" if maximum == MAX_KEY else maximum
    if value is None:
        allowed = f"at least {minimum}" if maximum is None else f"from {minimum} to {shown_maximum}"
        raise ParameterError(f"{name} must be a whole number, {allowed}, not {shown(number)}")
    if maximum is None and value < minimum:
        raise ParameterError(f"{name} must be at least {minimum}, not {shown(value)}")
    if maximum is not None and not minimum <= value <= maximum:
        raise ParameterError(f"{name} must be between {minimum} and {shown_maximum}, not {shown(value)}")
    return value


def checked_share(name: str, number: Probability) -> Union[int, float, Fraction]:
    """A number from 0 to 1, as Python's own. Raises `ParameterError`, which names it, if it is anything else. A string
    or a `Decimal` is stored as a fraction of the same value."""
    value = _as_real(number)
    if value is None:
        raise ParameterError(f"{name} must be a number between 0 and 1, not {shown(number)}")
    if not 0 <= value <= 1:
        raise ParameterError(f"{name} must be between 0 and 1, not {shown(number)}")
    return value


def _as_int(number: Any) -> Optional[int]:
    """A whole number of any type as Python's own; None if it is not one."""
    if _is_not_number(number):
        return None
    try:
        return int.__int__(operator.index(number))
    except TypeError:
        return None


def _as_real(number: Any) -> Union[None, int, float, Fraction]:
    """A finite number of any type as Python's own; None if it is not one."""
    if isinstance(number, (str, Decimal)) and not isinstance(number, Enum):
        return _as_fraction(str.__str__(number) if isinstance(number, str) else str(number))
    if _is_not_number(number):
        return None
    if isinstance(number, Integral):
        return _as_int(number)
    if isinstance(number, Rational):
        return Fraction(int(number.numerator), int(number.denominator))
    try:
        # Bytes can be passed to `float` too, but are not numbers.
        value = float(number) if hasattr(type(number), "__float__") else math.nan
    except (TypeError, ValueError, OverflowError):
        return None
    return value if math.isfinite(value) else None


def _as_fraction(written: str) -> Optional[Fraction]:
    """A number that is written as a string; None if it is not one."""
    if len(written) > _MAX_CHARACTERS or not _NUMBER.fullmatch(written):
        return None
    try:
        return Fraction(written)
    except ZeroDivisionError:
        return None


def _is_not_number(number: Any) -> bool:
    """Whether this would pass for a number, although it is a truth value, a member of an enumeration, or an array."""
    # Numbers and arrays of numpy have a kind of data and a shape.
    kind, shape = getattr(getattr(number, "dtype", None), "kind", "i"), getattr(number, "shape", ())
    return isinstance(number, (bool, Enum)) or kind not in ("i", "u", "f") or shape != ()


def shown(value: object) -> str:
    """A value in a message, cut to a readable length."""
    try:
        text = repr(value)
    except Exception:
        # A number of too many digits, or an object that fails; its type says enough.
        text = f"a value of type {type(value).__name__}"
    return text if len(text) <= 80 else f"{text[:77]}..."


def probability(name: str, number: Probability) -> Union[int, float, Fraction]:
    """A probability, as Python's own number. Raises `ParameterError` with its name if it is anything else, or so close
    to 0 or 1 that files, which have multiples of 1 / 2**31, would have 0 or 1."""
    value = checked_share(name, number)
    nearest = Fraction(parts(value), ALWAYS)
    if nearest in (0, 1) and nearest != value:
        raise ParameterError(
            f"{name} is {shown(number)}, which is {nearest} in multiples of 1 / 2**31: write {nearest}"
        )
    return value


def parts(number: Probability) -> int:
    """A probability times 2**31, to the nearest whole number."""
    return round(Fraction(checked_share("a probability", number)) * ALWAYS)


def checked_key(key: object) -> Key:
    """A key as it is stored: Python's `int` or `str`. Raises `ParameterError` if it is not a key."""
    if isinstance(key, str) and not isinstance(key, Enum):
        if not re.fullmatch("[0-9a-fA-F]{64}", key):
            raise ParameterError(f"key must be a number or 64 hexadecimal digits, not {shown(key)}")
        return str.__str__(key)
    if _as_int(key) is None:
        raise ParameterError(f"key must be a whole number or 64 hexadecimal digits, not {shown(key)}")
    return checked_int("key", key, 0, MAX_KEY)


def key_digits(key: object) -> str:
    """A key as 64 hexadecimal digits."""
    checked = checked_key(key)
    return checked if isinstance(checked, str) else f"{checked:064x}"


def derived_key(purpose: str, key: Key, number: int) -> str:
    """The key that follows from another key, a purpose and a number: 64 hexadecimal digits.

    It is the SHA-256 of the ASCII bytes of `trlab PURPOSE KEY NUMBER`, with KEY as 64 lower-case hexadecimal digits and
    NUMBER in decimal. Different purposes and numbers give independent keys."""
    return hashlib.sha256(f"trlab {purpose} {key_digits(key).lower()} {number}".encode("ascii")).hexdigest()


def cars_at(density: Density, cells: int) -> int:
    """The number of cars on `cells` cells that is nearest to a density. Raises `ParameterError` if it is 0 for a
    density above 0, because an empty road is not what was asked for."""
    exact = Fraction(checked_share("density", density)) * cells
    cars = round(exact)
    if exact and not cars:
        raise ParameterError(
            f"density {shown(density)} on {cells} cells is less than one car: the lowest density above 0 is "
            f"{1 / cells:.3g} there, so take a longer road, or 0 for an empty one"
        )
    return cars


def store(owner: object, **values: object) -> None:
    """Stores checked values in a frozen dataclass while it is made."""
    for name, value in values.items():
        object.__setattr__(owner, name, value)
