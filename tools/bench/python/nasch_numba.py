#!/usr/bin/env python3
"""nasch_numba.py [tuned]: the rule of Nagel and Schreckenberg on a ring in numba, as a researcher would compile it.

Reads a job with one lane and `rule nasch t`, and writes its snapshots as trlab does, but with a xorshift generator, which
needs only a few instructions per random number. `tuned` chooses a loop without divisions and without a branch on the random
number. Prints on standard error how long the steps and snapshots took, in seconds: wall-clock time and CPU time, both
without compilation."""
import io
import sys
from typing import IO, Any

import ring

try:
    import numpy as np
    from numba import njit, uint64
except ImportError:
    sys.exit("numba is not installed")

Numbers = np.ndarray[Any, np.dtype[np.int64]]
Bytes = np.ndarray[Any, np.dtype[np.uint8]]
STEP = np.frombuffer(b"step ", dtype=np.uint8)
SPEEDS = np.frombuffer(ring.SPEEDS, dtype=np.uint8)
DIGIT_0, LINE_FEED, EMPTY = ord("0"), ord("\n"), ord(".")
BUFFER = 1 << 16  # bytes of snapshots that are written at once
SEED = 88172645463325252  # that of Marsaglia's paper on xorshift generators
HEADING = 20  # at least the bytes of a line `step N`


@njit(cache=True)
def advance(places: Numbers, speeds: Numbers, cells: int, limit: int, brake: np.uint64, seed: np.uint64) -> np.uint64:
    """Takes a step and returns the new seed. The cars keep their order on the ring, so each looks at the next one."""
    cars = len(places)
    for car in range(cars):
        gap = (places[(car + 1) % cars] - places[car] - 1) % cells
        speeds[car] = min(speeds[car] + 1, limit, gap)
        if brake > 0:
            seed ^= seed << uint64(13)
            seed ^= seed >> uint64(7)
            seed ^= seed << uint64(17)
            if speeds[car] > 0 and (seed >> uint64(33)) < brake:
                speeds[car] -= 1
    for car in range(cars):
        places[car] = (places[car] + speeds[car]) % cells
    return seed


@njit(cache=True)
def advance_tuned(places: Numbers, speeds: Numbers, cells: int, limit: int, brake: np.uint64, seed: np.uint64) -> np.uint64:
    """The same in one loop, without divisions."""
    first = places[0]
    for car in range(len(places)):
        gap = (places[car + 1] if car + 1 < len(places) else first) - places[car] - 1
        speed = min(speeds[car] + 1, limit, gap if gap >= 0 else gap + cells)
        if brake > 0:
            seed ^= seed << uint64(13)
            seed ^= seed >> uint64(7)
            seed ^= seed << uint64(17)
            speed -= speed > 0 and (seed >> uint64(33)) < brake
        speeds[car] = speed
        places[car] += speed
        if places[car] >= cells:
            places[car] -= cells
    return seed


@njit(cache=True)
def draw(places: Numbers, speeds: Numbers, cells: int, step: int, out: Bytes, at: int) -> int:
    """Draws a snapshot into a buffer, below its line `step N`, and returns the position of its end."""
    out[at:at + len(STEP)] = STEP
    # The line feed comes after the digits, which are written from the last one backwards.
    line_end, rest = at + len(STEP) + 1, step
    while rest >= 10:
        line_end, rest = line_end + 1, rest // 10
    for place in range(line_end - 1, at + len(STEP) - 1, -1):
        out[place], step = DIGIT_0 + step % 10, step // 10
    out[line_end] = LINE_FEED
    lane = out[line_end + 1:line_end + 2 + cells]
    lane[:cells] = EMPTY
    for car in range(len(places)):
        lane[places[car]] = SPEEDS[speeds[car]]
    lane[cells] = LINE_FEED
    return line_end + 2 + cells


@njit(cache=True)
def fill(
    is_tuned: bool, places: Numbers, speeds: Numbers, cells: int, limit: int, brake: np.uint64, seed: np.uint64, step: int,
    steps: int, out: Bytes
) -> tuple[np.uint64, int, int]:
    """Draws snapshots and takes steps until the buffer is full; returns the seed, the next step and the bytes drawn."""
    at = 0
    while step <= steps and at + cells + HEADING <= len(out):
        at = draw(places, speeds, cells, step, out, at)
        if step < steps and is_tuned:
            seed = advance_tuned(places, speeds, cells, limit, brake, seed)
        elif step < steps:
            seed = advance(places, speeds, cells, limit, brake, seed)
        step += 1
    return seed, step, at


def run(limit: int, lane: bytes, brake: int, steps: int, out: IO[bytes], is_tuned: bool) -> None:
    """Runs a job, and writes its snapshots."""
    start = np.frombuffer(lane, dtype=np.uint8)
    cells, places = len(start), np.flatnonzero(start != ord("."))
    speeds = np.searchsorted(SPEEDS, start[places])
    buffer, seed, step = np.empty(BUFFER + cells, dtype=np.uint8), np.uint64(SEED), 0
    while step <= steps:
        road = places, speeds, cells, limit, np.uint64(brake), np.uint64(seed)
        seed, step, end = fill(is_tuned, *road, step, steps, buffer)
        out.write(buffer[:end].data)


limit, lane, brake, steps = ring.read_job(sys.stdin.read())
is_tuned = sys.argv[1:] == ["tuned"]
run(limit, lane, brake, 1, io.BytesIO(), is_tuned)
ring.measured(lambda: run(limit, lane, brake, steps, sys.stdout.buffer, is_tuned))
