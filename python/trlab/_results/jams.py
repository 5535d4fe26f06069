"""Jams: connected components of stopped cars in space and time."""
from __future__ import annotations

from typing import Any, NamedTuple

from .arrays import numpy
from .following import Array


class Jam(NamedTuple):
    """A group of stopped cars: it exists for `lifetime` steps from step `first` on; `cars` is the number of different
    cars in it, and `size` their stopped time in car-steps.

    Two stopped cars (speed 0) belong to one jam if they are in neighbouring cells of a lane after the same step, or are
    the same car after consecutive steps. If `is_older`, the jam is in the first snapshot, so that its beginning was not
    seen; if `is_censored`, it is in the last one, so that its end was not seen. Its lifetime, cars and size are then
    lower bounds.

    The mean lifetime in one run, if the traffic is steady, is the time of all jams together, divided by the number of
    jams that end:

        jams = trajectories.jams()
        mean = sum(jam.lifetime for jam in jams) / sum(not jam.is_censored for jam in jams)

    This is right for lifetimes of any law, although the run cuts off some of them, because the mean number of jams is
    the number that end per step, times their mean lifetime (J. D. C. Little, Oper. Res. 9, 383, 1961). Take its error
    from several runs (`trlab.means`): jams of one run are not independent, and their lifetimes are not exponential, so
    that `trlab.lifetime` is not for them."""

    first: int
    lifetime: int
    cars: int
    size: int
    is_older: bool
    is_censored: bool


def jams_of(first: int, speed: Array, ahead: Array, gap: Array) -> list[Jam]:
    """The jams by first step and car; the arrays are indexed `[step, car]`, and `ahead` is the car ahead of each.

    A stop is the time of one car from its first stopped step to its last one. Stops that touch form a jam."""
    stopped = (speed == 0).T
    begins, ends = stopped.copy(), stopped.copy()
    begins[:, 1:] &= ~stopped[:, :-1]
    ends[:, :-1] &= ~stopped[:, 1:]
    (car, begin), end = numpy.nonzero(begins), numpy.nonzero(ends)[1]
    if not len(car):
        return []
    jam = _joined(len(car), _touching(stopped, begins, ahead, gap))
    by_jam = numpy.lexsort((car, begin, jam))
    car, begin, end, jam = car[by_jam], begin[by_jam], end[by_jam], jam[by_jam]
    heads = numpy.flatnonzero(numpy.diff(jam, prepend=-1))  # the first stop of each jam
    lasts = numpy.maximum.reduceat(end, heads)
    sizes = numpy.add.reduceat(end - begin + 1, heads)
    order = numpy.lexsort((car[heads], begin[heads]))
    columns = [column[order].tolist() for column in (begin[heads], lasts, _different(jam, car, heads), sizes)]
    last_row = len(speed) - 1
    return [
        Jam(first + row, lifetime=last - row + 1, cars=cars, size=size, is_older=row == 0, is_censored=last == last_row)
        for row, last, cars, size in zip(*columns)
    ]


class _Pairs(NamedTuple):
    """Pairs of numbers of stops."""

    first: Array
    second: Array


def _touching(stopped: Array, begins: Array, ahead: Array, gap: Array) -> _Pairs:
    """The pairs of stops that have cars in neighbouring cells in the same step. Stops are numbered car by car."""
    row, car = numpy.nonzero(stopped.T & (gap == 0) & numpy.take_along_axis(stopped.T, ahead, axis=1))
    stops = numpy.cumsum(begins).reshape(stopped.shape) - 1
    return _Pairs(stops[car, row], stops[ahead[row, car], row])


def _joined(count: int, pairs: _Pairs) -> Array:
    """For each of the numbers below `count`, the smallest number to which the pairs connect it."""
    root = numpy.arange(count)
    first, second = pairs
    while len(first):
        low, high = numpy.minimum(first, second), numpy.maximum(first, second)
        numpy.minimum.at(root, high, low)
        while (root[root] != root).any():
            root = root[root]
        first, second = root[low], root[high]
        is_open = first != second
        first, second = first[is_open], second[is_open]
    return root


def _different(jam: Array, car: Array, heads: Array) -> Any:
    """The number of different cars in each jam."""
    order = numpy.lexsort((car, jam))
    is_new = (numpy.diff(jam[order], prepend=-1) != 0) | (numpy.diff(car[order], prepend=-1) != 0)
    return numpy.add.reduceat(is_new.astype(numpy.int64), heads)
