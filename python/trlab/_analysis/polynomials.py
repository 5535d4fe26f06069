"""Polynomials as arrays of their coefficients, from the constant one on.

`numpy.polynomial.Polynomial` is ten times as slow for the small polynomials that fits of a peak have by the hundred."""
from __future__ import annotations

import math

from .columns import Array
from .required import numpy


def value(coefficients: Array, x: float) -> float:
    """The value at x."""
    total = 0.0
    for coefficient in coefficients[::-1].tolist():
        total = total * x + coefficient
    return total


def derivative(coefficients: Array) -> Array:
    """The coefficients of the derivative."""
    derived: Array = coefficients[1:] * numpy.arange(1, len(coefficients))
    return derived


def powers(x: float, degree: int) -> Array:
    """The derivatives of the value at x with respect to the coefficients."""
    return numpy.array([x**power for power in range(degree + 1)])


def slopes(x: float, degree: int) -> Array:
    """The derivatives of the slope at x with respect to the coefficients."""
    return numpy.array([power * x ** (power - 1) if power else 0.0 for power in range(degree + 1)])


def real_roots(coefficients: Array, low: float, high: float) -> list[float]:
    """The real roots from `low` to `high`, for polynomials of degree 1 or 2 by the stable formula."""
    trimmed = numpy.trim_zeros(coefficients, "b").tolist()
    if len(trimmed) < 2:
        return []
    if len(trimmed) == 2:
        constant, slope = trimmed
        roots = [-constant / slope]
    elif len(trimmed) == 3:
        roots = _roots_of_parabola(*trimmed)
    else:
        roots = [float(root.real) for root in numpy.roots(trimmed[::-1]) if abs(root.imag) < 1e-9]
    return [root for root in roots if low <= root <= high]


def _roots_of_parabola(constant: float, slope: float, bend: float) -> list[float]:
    """The real roots of `constant` + `slope` x + `bend` x**2, without the difference of nearly equal numbers."""
    discriminant = slope**2 - 4 * bend * constant
    if discriminant < 0:
        return []
    half = -(slope + math.copysign(math.sqrt(discriminant), slope)) / 2
    return [half / bend, constant / half] if half else [half / bend]
