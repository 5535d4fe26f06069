"""Runs of the program for figures."""
import subprocess
from fractions import Fraction
from typing import List, Union

from ...program import find


def parts(probability: Union[float, Fraction]) -> int:
    """A probability as inputs have it, in parts of 2**31."""
    return int(2**31 * probability)


def moving_cars(cars: int, cells: int, speed: int) -> str:
    """A lane with evenly spaced cars at one speed. Their number must divide that of the cells."""
    return (str(speed) + "." * (cells // cars - 1)) * cars


def answer(command: str, lines: List[str]) -> str:
    """The output of a command for an input of these lines."""
    text = "".join(f"{line}\n" for line in lines)
    return subprocess.run([find(), command], input=text, capture_output=True, text=True, check=True).stdout


def snapshots(limit: int, lanes: List[str], rule: List[str], steps: int, key: int = 0) -> List[List[str]]:
    """The lanes after each step, from the initial road on."""
    job = ["road 1", f"key {key:064x}", f"limit {limit}", *(f"lane {lane}" for lane in lanes), *rule, f"steps {steps}"]
    lines = [line for line in answer("run", job).splitlines() if not line.startswith("step")]
    return [lines[place:place + len(lanes)] for place in range(0, len(lines), len(lanes))]


def rows(limit: int, lane: str, rule: List[str], steps: int) -> List[str]:
    """One lane after each step, from the initial road on."""
    return [row for row, in snapshots(limit, [lane], rule, steps)]


def flows(sweep: List[str]) -> List[float]:
    """The flow in each row of the table of a sweep, in cars per step and lane."""
    table = [row.split(",") for row in answer("sweep", sweep).splitlines()[1:]]
    return [int(distance) / (int(cells) * int(steps)) for _, cells, steps, distance, *_ in table]
