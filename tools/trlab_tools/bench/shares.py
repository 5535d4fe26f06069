"""Rows of work that is shared: runs by several workers, sweeps by several runners, and a sweep compared with a run."""
import filecmp
import os
import resource
import statistics
import subprocess
from collections.abc import Iterator, Sequence
from typing import NamedTuple, Optional

from . import measuring
from .measuring import BRAKING, CHANGING, NO_TIME, Run
from .rows import Programs, Row, time_per_move, wanted_text

SECONDS = 0.4
MOVES = 6_000_000  # cars times steps of a sweep of one point
TRIED_MOVES = 1_000_000  # cars times steps of a run whose time is not known yet
NOBODY = 65534  # the number of the user who may start no threads
# Four runs of a program at once, with one worker each, on the input in a file.
AT_ONCE = 'for k in 1 2 3 4; do "$0" run <"$1" >"$2" & done; wait'


class SharedSweep(NamedTuple):
    """The points of a sweep, the cells of their roads, the steps, and how many times as fast four runners should be."""

    points: int
    cells: int
    steps: int
    bound: Optional[float]


SWEEPS = [SharedSweep(16, 200, 10000, 3), SharedSweep(7, 1000, 10000, 3), SharedSweep(16, 10000, 200, None)]


class Shared(NamedTuple):
    """An input of `cars` cars in total, which take `steps` steps each; a command runs it with several workers or runners."""

    title: str
    command: str
    helper: str  # `worker` or `runner`
    lanes: int
    cells: int
    cars: int
    steps: int
    text: bytes

    def words(self, program: str, count: int) -> list[str]:
        """The command line with a number of workers or runners."""
        return [program, self.command, f"--{self.helper}s", str(count)]

    def name(self, count: int) -> str:
        """The number of workers or runners in words, such as `4 workers`."""
        return f"{count} {self.helper}{'s' if count > 1 else ''}"

    def time_per_move(self, times: Sequence[measuring.Time], runs: int = 1) -> measuring.Time:
        """The nanoseconds per car and step in the best turn, with `runs` runs at once."""
        return time_per_move(measuring.best(times), NO_TIME, self.cars * self.steps * runs)


def a_sweep(points: int, cells: int, steps: int) -> Shared:
    """A sweep of points with evenly spaced densities, without the empty and the full road."""
    cars = [cells * number // (points + 1) for number in range(1, points + 1)]
    text = measuring.sweep(BRAKING, cells, cars, steps)
    return Shared(f"sweep of {points} points, `{BRAKING}`", "sweep", "runner", 1, cells, sum(cars), steps, text)


def a_run(rule: str, lanes: int, cells: int, steps: int) -> Shared:
    """A run with three cars per ten cells; `cells` is the total of all lanes."""
    length, cars = cells // lanes, cells // lanes * 3 // 10
    road = [measuring.spread(length, cars, seed) for seed in range(1, lanes + 1)]
    return Shared(f"`{rule}`", "run", "worker", lanes, length, lanes * cars, steps, measuring.job(road, rule, steps))


def fitting_run(program: str, rule: str, lanes: int, cells: int, folder: str) -> Shared:
    """A run that takes one worker about SECONDS."""
    steps = TRIED_MOVES // (cells * 3 // 10)
    path = measuring.write(os.path.join(folder, "trial"), a_run(rule, lanes, cells, steps).text)
    return a_run(rule, lanes, cells, int(steps * SECONDS / measuring.timed([program, "run"], path).cpu))


def without_threads() -> None:
    """Keep the system from starting further threads for this process."""
    if os.getuid() == 0:
        os.setuid(NOBODY)
    resource.setrlimit(resource.RLIMIT_NPROC, (0, 0))


def compare_without_threads(shared: Shared, program: str, path: str, folder: str) -> None:
    """End if the output with 16 workers or runners is different when no thread can be started."""
    outputs = [os.path.join(folder, name) for name in ("threads", "none")]
    for output, limit in zip(outputs, (None, without_threads)):
        with open(path, "rb") as text, open(output, "wb") as file:
            subprocess.run(shared.words(program, 16), stdin=text, stdout=file, check=True, preexec_fn=limit)
    if not filecmp.cmp(outputs[0], outputs[1], shallow=False):
        raise SystemExit(f"{shared.title}: a different output without threads")


def compared(shared: Shared, program: str, plain: list[str], counts: Sequence[int], folder: str) -> str:
    """The path of the input, after the outputs with all counts have been compared with the output of plain."""
    path = measuring.write(os.path.join(folder, "shared"), shared.text)
    measuring.compare([plain] + [shared.words(program, count) for count in counts], path, folder)
    compare_without_threads(shared, program, path, folder)
    return path


def rows_of(
    programs: Programs, shared: Shared, counts: Sequence[int], bound: Optional[float], times: int, folder: str
) -> Iterator[Row]:
    """The rows for these counts of workers or runners. The first count is 1, and 4 should be at least `bound` times as fast."""
    plain = [programs.plain, *(["sweep"] if shared.command == "sweep" else [])]
    path = compared(shared, programs.trlab, plain, counts, folder)
    runs = {shared.name(count): Run(shared.words(programs.trlab, count), path) for count in counts}
    runs["plain"] = Run(plain, path)
    if shared.command == "run":
        runs["four runs at once"] = Run(["sh", "-c", AT_ONCE, programs.trlab, path, os.devnull], path)
    times_by_name = measuring.turns(runs, times)
    plain_time = shared.time_per_move(times_by_name.pop("plain"))
    for name, times_of_run in times_by_name.items():
        yield row_of(shared, name, times_of_run, times_by_name[shared.name(1)], plain_time, bound)


def row_of(
    shared: Shared, name: str, times: list[measuring.Time], times_of_one: list[measuring.Time], plain_time: measuring.Time,
    bound: Optional[float],
) -> Row:
    """The row with this name. Its speed-up over one worker or runner is wall-clock time, the median of the turns."""
    runs = 4 if name == "four runs at once" else 1
    row = Row(f"{shared.title}, {name}", shared.lanes, shared.cells, shared.cars, {"trlab": shared.time_per_move(times, runs)})
    if times is times_of_one:
        return row._replace(times={**row.times, "plain": plain_time})
    faster = statistics.median(runs * one.clock / time.clock for one, time in zip(times_of_one, times))
    row = row._replace(beside=f"{faster:.2f} times as fast as one")
    if bound is None or name != shared.name(4):
        return row
    return row._replace(wanted=(wanted_text(f"at least {bound} times", faster >= bound),))


def sweep_over_run(programs: Programs, cells: int, cars: int, bound: float, times: int, folder: str) -> Row:
    """The row of a sweep of one road, whose CPU time is compared with that of a run of the road."""
    steps, runs, road = MOVES // cars, {}, measuring.even(cells, cars)
    texts = {("run", count): measuring.job(road, BRAKING, count) for count in (steps, 0)}
    texts.update({("sweep", count): measuring.sweep(BRAKING, cells, [cars], count) for count in (steps + 1, 1)})
    for (command, count), text in texts.items():
        path = measuring.write(os.path.join(folder, f"{command} {count}"), text)
        runs[command, count] = Run([programs.trlab, command], path)
        plain = [programs.plain, *(["sweep"] if command == "sweep" else [])]
        measuring.compare([plain, [programs.trlab, command]], path, folder)
    run_time, run_start, sweep_time, sweep_start = measuring.best_of(runs, times).values()
    of_sweep = time_per_move(sweep_time, sweep_start, cars * steps)
    of_run = time_per_move(run_time, run_start, cars * steps)
    ratio = of_sweep.cpu / of_run.cpu
    beside, wanted = f"a run {of_run.cpu:.1f} ({ratio:.2f})", (wanted_text(f"a run at most {bound}", ratio <= bound),)
    return Row(f"sweep of one point, `{BRAKING}`", 1, cells, cars, {"trlab": of_sweep}, beside, wanted)


def rows(programs: Programs, is_quick: bool, folder: str) -> Iterator[Row]:
    """All rows of work that is shared; a quick measurement takes only those with a wanted value."""
    times, counts = (3, [1, 4]) if is_quick else (7, [1, 2, 4])
    for cells, cars, bound_of_run in (100, 30, 1.1), (1000, 300, 1.03):
        yield sweep_over_run(programs, cells, cars, bound_of_run, times, folder)
    for sweep in SWEEPS:
        if sweep.bound or not is_quick:
            shared = a_sweep(sweep.points, sweep.cells, sweep.steps)
            yield from rows_of(programs, shared, counts, sweep.bound, times, folder)
    for rule, lanes in (BRAKING, 1), (CHANGING, 2):
        for cells, bound in (100000, 2.9), (1000, None):
            if bound or not is_quick:
                run = fitting_run(programs.trlab, rule, lanes, cells, folder)
                yield from rows_of(programs, run, counts, bound, times, folder)
