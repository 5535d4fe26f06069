"""The common part of the Python programs of the benchmark: reading a job with one lane, and printing the time of a run."""
import os
import sys
import time
from collections.abc import Callable

SPEEDS = b"0123456789abcdefghijklmnopqrstuvwxyz"
PARTS = 2**31  # a probability p is written as p * 2^31


def read_job(text: str) -> tuple[int, bytes, int, int]:
    """The maximum speed, the lane, p * 2^31 and the number of steps of a job with one lane and `rule nasch`."""
    lines = [line.split() for line in text.splitlines()]
    words = {line[0]: line[1:] for line in lines}
    if words["rule"][0] != "nasch" or sum(line[0] == "lane" for line in lines) != 1:
        sys.exit("only jobs of one lane with the rule nasch")
    return int(words["limit"][0]), words["lane"][0].encode(), int(words["rule"][1]), int(words["steps"][0])


def measured(call: Callable[[], object]) -> None:
    """Prints the minimum time of a call on standard error: wall-clock time and CPU time, in seconds. The environment
    variable TURNS sets the number of calls in one process, because Python itself starts slowly."""
    times = []
    for _ in range(int(os.environ.get("TURNS", 1))):
        clock, cpu = time.perf_counter(), time.process_time()
        call()
        sys.stdout.buffer.flush()
        times.append((time.perf_counter() - clock, time.process_time() - cpu))
    print(*map(min, zip(*times)), file=sys.stderr)
