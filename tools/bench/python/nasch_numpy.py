#!/usr/bin/env python3
"""nasch_numpy.py: the rule of Nagel and Schreckenberg on a ring in NumPy, as it is often written.

Reads a job with one lane and `rule nasch t`, and writes its snapshots as trlab does, but with NumPy's own generator.
Prints on standard error how long the steps and snapshots took, in seconds: wall-clock time and CPU time."""
import sys
from typing import IO, Any

import ring

try:
    import numpy as np
except ImportError:
    sys.exit("NumPy is not installed")

Numbers = np.ndarray[Any, np.dtype[np.int64]]
SPEEDS = np.frombuffer(ring.SPEEDS, dtype=np.uint8)


def picture(cells: int, places: Numbers, speeds: Numbers) -> bytes:
    """The row of a lane in a snapshot, with its line feed."""
    lane = np.full(cells + 1, ord("."), dtype=np.uint8)
    lane[places] = SPEEDS[speeds]
    lane[cells] = ord("\n")
    return lane.tobytes()


def run(limit: int, lane: bytes, brake: int, steps: int, out: IO[bytes]) -> None:
    """Runs a job. The cars keep their order on the ring, so each looks at the next one."""
    draw, chance = np.random.default_rng(1), brake / ring.PARTS
    start = np.frombuffer(lane, dtype=np.uint8)
    cells, places = len(start), np.flatnonzero(start != ord("."))
    speeds = np.searchsorted(SPEEDS, start[places])
    out.write(b"step 0\n" + picture(cells, places, speeds))
    for step in range(1, steps + 1):
        gaps = (np.roll(places, -1) - places - 1) % cells
        speeds = np.minimum(np.minimum(speeds + 1, limit), gaps)
        if chance > 0:
            speeds = np.maximum(speeds - (draw.random(len(places)) < chance), 0)
        places = (places + speeds) % cells
        out.write(b"step %d\n" % step + picture(cells, places, speeds))


limit, lane, brake, steps = ring.read_job(sys.stdin.read())
ring.measured(lambda: run(limit, lane, brake, steps, sys.stdout.buffer))
