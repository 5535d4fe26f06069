"""The fits of a curve around its highest point: polynomials, two halves of parabolas with one vertex, and two
polynomials that meet in a corner."""
from __future__ import annotations

from collections.abc import Iterator
from typing import NamedTuple, Optional

from .columns import Array
from .polynomials import derivative, powers, real_roots, slopes, value
from .required import numpy

LEAST_POINTS, LEAST_FREEDOM, MAX_DEGREE = 5, 2, 4

MAX_TURNS = 10
"""The turns of a fit that is not linear."""

CONVERGED_STEP, MAX_LAST_STEP = 1e-4, 1e-2
"""The step of the vertex after which such a fit ends, and the largest one with which it counts after the last turn, as
shares of half the range of the points."""

NOT_LOWER = 3
"""The maximum is next to a point that is at most this many of its standard errors lower than the highest one."""


class Top(NamedTuple):
    """The maximum of a fit, and the variances of its place and height."""

    x: float
    x_variance: float
    y: float
    y_variance: float


class Fit(NamedTuple):
    """A fit with `parameters` to `points` means, which leaves out `cut` of them, and its maximum, if it has one inside.
    `has_corner` if the maximum is where two polynomials meet at an angle."""

    chi2: float
    parameters: int
    points: int
    cut: int
    top: Optional[Top]
    has_corner: bool

    @property
    def freedom(self) -> int:
        """The degrees of freedom."""
        return self.points - self.parameters

    @property
    def criterion(self) -> float:
        """The criterion of Akaike, by which a point that is cut counts as a parameter that fits it exactly."""
        return self.chi2 + 2 * self.parameters + 2 * self.cut


class _Piece(NamedTuple):
    """A polynomial: its coefficients, the matrix that gives them from the means, and its chi2."""

    coefficients: Array
    solve: Array
    chi2: float


class _Halves(NamedTuple):
    """Two halves of parabolas with a common vertex: its height, their bends, and the residuals of the means. The matrix
    `solve` gives the changes of the height, of both bends and of the place of the vertex from the residuals."""

    height: float
    bends: list[float]
    residuals: Array
    solve: Array


class _Pair(NamedTuple):
    """Two polynomials: `rising` for the points from `first` to before `place`, and `falling` for those from `place` to
    before `end`. The matrix `solve` gives the coefficients of both, those of `rising` first, from the means."""

    first: int
    place: int
    end: int
    rising: Array
    falling: Array
    solve: Array


class _Maximum(NamedTuple):
    """The maximum of a pair of polynomials, and whether it is the corner in which they meet."""

    top: Top
    is_corner: bool


class Curve:
    """The means at places near the highest one, with their covariance, from at least `n` runs each."""

    def __init__(self, places: Array, mean: Array, covariance: Array, n: int) -> None:
        self.places, self.mean, self.covariance = places, mean, covariance
        self.sem = numpy.sqrt(numpy.diag(covariance))
        self.top = int(mean.argmax())
        # With few runs the errors are uncertain too: the mean of Student's t**2 is (n - 1) / (n - 3) for n - 1 degrees
        # of freedom.
        self._scale = (n - 3) / (n - 1)
        self._pieces: dict[tuple[int, int, int], _Piece] = {}

    def fits(self) -> list[Fit]:
        """All fits with at least two degrees of freedom, to all points and to those that are highest."""
        return [
            fit for first, end in self._windows()
            for fit in (*self._smooth(first, end), *self._skewed(first, end), *self._corners(first, end))
        ]

    def _windows(self) -> Iterator[tuple[int, int]]:
        """The ranges of points around the highest one, without the lower one of the two ends each time."""
        first, end = 0, len(self.mean)
        while end - first >= LEAST_POINTS and first < self.top < end - 1:
            yield first, end
            first, end = (first + 1, end) if self.mean[first] < self.mean[end - 1] else (first, end - 1)

    def _piece(self, first: int, end: int, degree: int) -> _Piece:
        """The polynomial of this degree through these points."""
        key = first, end, degree
        if key not in self._pieces:
            design = numpy.vander(self.places[first:end], degree + 1, increasing=True)
            weights = 1 / self.sem[first:end]
            solve = numpy.linalg.pinv(design * weights[:, None]) * weights
            mean = self.mean[first:end]
            coefficients = solve @ mean
            chi2 = float((((mean - design @ coefficients) * weights) ** 2).sum()) * self._scale
            self._pieces[key] = _Piece(coefficients, solve, chi2)
        return self._pieces[key]

    def _fit(self, pieces: list[_Piece], first: int, end: int, top: Optional[Top], has_corner: bool) -> Fit:
        """A fit to the points from `first` to `end`."""
        chi2, parameters = sum(piece.chi2 for piece in pieces), sum(len(piece.coefficients) for piece in pieces)
        return Fit(chi2, parameters, end - first, len(self.mean) - end + first, top, has_corner)

    def _smooth(self, first: int, end: int) -> Iterator[Fit]:
        """The polynomials through these points."""
        for degree in range(2, min(MAX_DEGREE, end - first - 1 - LEAST_FREEDOM) + 1):
            piece = self._piece(first, end, degree)
            yield self._fit([piece], first, end, self._top_of_polynomial(piece, first, end), has_corner=False)

    def _top_of_polynomial(self, piece: _Piece, first: int, end: int) -> Optional[Top]:
        """The maximum of a polynomial through these points, if it is between the outer ones and higher than there."""
        curve = piece.coefficients
        ends = self.places[first], self.places[end - 1]
        level_places = real_roots(derivative(curve), *ends)
        x = max(level_places, key=lambda place: value(curve, place), default=None)
        if x is None or value(curve, x) <= max(value(curve, place) for place in ends):
            return None
        degree, bend = len(curve) - 1, value(derivative(derivative(curve)), x)
        return self._top(piece.solve, first, end, x, slopes(x, degree) / -bend, value(curve, x), powers(x, degree))

    def _skewed(self, first: int, end: int) -> Iterator[Fit]:
        """The curve of two halves of parabolas with the same vertex, if it is inside: by the method of Gauss and Newton,
        from the vertex of the parabola on."""
        _, slope, bend = self._piece(first, end, 2).coefficients
        if end - first - 4 < LEAST_FREEDOM or bend >= 0:
            return
        places = self.places[first:end]
        vertex = -slope / (2 * bend)
        for _ in range(MAX_TURNS):
            if not places[1] <= vertex <= places[-2]:
                return
            halves = self._halves(first, end, vertex)
            step = float(halves.solve[3] @ halves.residuals)
            vertex += step
            if abs(step) < CONVERGED_STEP:
                break
        if min(halves.bends) > 0 and abs(step) < MAX_LAST_STEP:
            chi2 = float(((halves.residuals * (1 / self.sem[first:end])) ** 2).sum()) * self._scale
            # Place and height of the maximum are two of the four parameters.
            rows = numpy.eye(4)
            top = self._top(halves.solve, first, end, vertex, rows[3], halves.height, rows[0])
            yield Fit(chi2, 4, end - first, len(self.mean) - end + first, top, has_corner=False)

    def _halves(self, first: int, end: int, vertex: float) -> _Halves:
        """The halves of parabolas through these points that have their vertex at this place."""
        mean, weights = self.mean[first:end], 1 / self.sem[first:end]
        distance = self.places[first:end] - vertex
        is_in_half = numpy.stack([distance < 0, distance >= 0], axis=1).astype(float)
        design = numpy.column_stack([numpy.ones(len(distance)), -is_in_half * distance[:, None] ** 2])
        height, *bends = numpy.linalg.pinv(design * weights[:, None]) @ (mean * weights)
        jacobian = numpy.column_stack([design, 2 * distance * (is_in_half @ bends)])
        solve = numpy.linalg.pinv(jacobian * weights[:, None]) * weights
        return _Halves(float(height), bends, mean - design @ [height, *bends], solve)

    def _top(
        self, solve: Array, first: int, end: int, x: float, x_row: Array, y: float, y_row: Array,
        x_shape: float = 0.0, y_shape: float = 0.0,
    ) -> Top:
        """A maximum, from the derivatives of its place and height by the coefficients. Its variances are those of the
        means, propagated to first order, and the squares of the errors that are due to the unknown shape."""
        covariance = self.covariance[first:end, first:end]
        x_weights, y_weights = x_row @ solve, y_row @ solve
        return Top(
            x, float(x_weights @ covariance @ x_weights) + x_shape**2,
            y, float(y_weights @ covariance @ y_weights) + y_shape**2,
        )

    def _corners(self, first: int, end: int) -> Iterator[Fit]:
        """Two lines or parabolas each that meet between two neighbouring points, at or next to the highest one."""
        is_high = self.mean + NOT_LOWER * self.sem >= self.mean[self.top]
        for place in range(first + 2, end - 1):
            if not is_high[place - 1:place + 1].any():
                continue
            for left in range(1, min(2, place - first - 1) + 1):
                for right in range(1, min(2, end - place - 1) + 1):
                    if end - first - left - right - 2 >= LEAST_FREEDOM:
                        yield from self._corner(first, place, end, left, right)

    def _corner(self, first: int, place: int, end: int, left: int, right: int) -> Iterator[Fit]:
        """The fit of polynomials of the degrees `left` and `right` to the points before `place` and from it on; none if
        they do not meet between the two points there."""
        before, after = self._piece(first, place, left), self._piece(place, end, right)
        solve = numpy.zeros((left + right + 2, end - first))
        solve[:left + 1, :place - first], solve[left + 1:, place - first:] = before.solve, after.solve
        pair = _Pair(first, place, end, before.coefficients, after.coefficients, solve)
        difference = numpy.zeros(3)
        difference[:left + 1] += pair.rising
        difference[:right + 1] -= pair.falling
        meetings = real_roots(difference, self.places[place - 1], self.places[place])
        if meetings:
            maxima = [maximum for x in meetings for maximum in self._maxima(pair, x)]
            highest = max(maxima, key=lambda maximum: maximum.top.y, default=None)
            top, has_corner = highest or (None, False)
            yield self._fit([before, after], first, end, top, has_corner)

    def _maxima(self, pair: _Pair, x: float) -> Iterator[_Maximum]:
        """The maximum of two polynomials that meet at x, if there is one: the corner, or the vertex of a parabola."""
        slope, next_slope = value(derivative(pair.rising), x), value(derivative(pair.falling), x)
        if slope > 0 > next_slope:
            yield _Maximum(self._at_corner(pair, x), is_corner=True)
        elif slope <= 0 and len(pair.rising) == 3:
            yield from self._at_vertex(pair, pair.rising, 0, self.places[pair.first], x)
        elif next_slope >= 0 and len(pair.falling) == 3:
            yield from self._at_vertex(pair, pair.falling, len(pair.rising), x, self.places[pair.end - 1])

    def _at_corner(self, pair: _Pair, x: float) -> Top:
        """The maximum between two points, next to which polynomials meet at x in a corner.

        The corner may be round. Then the maximum is anywhere between the two points, and its height between that of the
        fit at the higher one and that of the corner. The middles of both ranges are taken, with half the range as
        error of the place, and a little more than half for the height, which is at the end of its range if the corner is
        sharp."""
        first, place, end, rising, falling, solve = pair
        before, after = self.places[place - 1], self.places[place]
        slope, next_slope = value(derivative(rising), x), value(derivative(falling), x)
        zeros = numpy.zeros(len(rising)), numpy.zeros(len(falling))
        height = numpy.concatenate([powers(x, len(rising) - 1), zeros[1]])
        moved = (numpy.concatenate([zeros[0], powers(x, len(falling) - 1)]) - height) / (slope - next_slope)
        least = max(value(rising, before), value(falling, after))
        y_range = max(0.0, value(rising, x) - least) / 2
        return self._top(
            solve, first, end, (before + after) / 2, moved, value(rising, x) - y_range, height + slope * moved,
            x_shape=(after - before) / 2, y_shape=1.2 * y_range,
        )

    def _at_vertex(
        self, pair: _Pair, parabola: Array, offset: int, left: float, right: float
    ) -> Iterator[_Maximum]:
        """The vertex of a parabola whose coefficients begin at `offset` in those of the pair, if it is a maximum between
        the places `left` and `right`."""
        _, slope, bend = parabola
        if bend >= 0 or not left < -slope / (2 * bend) < right:
            return
        x = -slope / (2 * bend)
        x_row, y_row = numpy.zeros(len(pair.solve)), numpy.zeros(len(pair.solve))
        x_row[offset:offset + 3], y_row[offset:offset + 3] = slopes(x, 2) / (-2 * bend), powers(x, 2)
        top = self._top(pair.solve, pair.first, pair.end, x, x_row, value(parabola, x), y_row)
        yield _Maximum(top, is_corner=False)
