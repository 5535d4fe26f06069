"""Rows of one road each: trlab with one worker, compared with the programs without proofs; and its memory."""
import itertools
import os
from collections.abc import Callable, Iterator
from typing import NamedTuple, Optional

from . import measuring
from .measuring import BRAKING, CHANGING, DETERMINISTIC, LANES_OF_RULE, NO_TIME, SLOW_TO_START, Run
from .rows import Programs, Row, time_per_move, wanted_text

SECONDS = 0.05  # of a run; short runs are less often disturbed on a shared machine
COMPARED_BYTES = 30_000_000  # of an output, at most
MAX_STEPS = 500_000  # of a job
CELLS, DENSITIES = [100, 1000, 100000], [0.1, 0.2, 0.3, 0.8]
# The cells per lane and the density of a road.
Size = tuple[int, Optional[float]]
FIVE_CARS: Size = (100, 0.05)
LONG: Size = (100000, 0.3)
# The beginnings of the names of programs with eight words in parallel, and of the tuned program in numba.
WIDE, TUNED = "wide ", "tuned "
# In a heap only few cars per step change to the empty lane.
HEAP_RULE = "rickert 536870912 1"
# The wanted maximum of the time of trlab over the time of other programs, by rule and size, and the name of the program.
MAX_RATIOS: dict[tuple[str, Size], dict[str, float]] = {
    (DETERMINISTIC, LONG): {"plain": 1.1, "numba": 0.55, "NumPy": 0.2},
    (BRAKING, LONG): {"floor": 1.35, "NumPy": 0.85},
    (SLOW_TO_START, LONG): {"floor": 1.3},
    (CHANGING, LONG): {"floor": 1.7, "interpreter": 0.4},
    **{(BRAKING, (1000, density)): {"numba": 1.05} for density in (0.1, 0.2, 0.3)},
    **{(rule, FIVE_CARS): {"interpreter": 0.8} for rule in LANES_OF_RULE},
}
# The wanted maximum of the nanoseconds per car and step, for five cars.
MAX_NANOSECONDS = {DETERMINISTIC: 32, BRAKING: 70}
LARGE_HEAP, SMALL_HEAP = 64000, 16000  # cells
MAX_GROWTH = 4.5  # of the time of a step, from the small heap to the large one


class Road(NamedTuple):
    """A rule on lanes of `cells` cells. A density of None means a heap: a full lane next to an empty one."""

    rule: str
    lanes: int
    cells: int
    density: Optional[float]

    def lane_texts(self) -> list[str]:
        """The lanes, as a job has them."""
        if self.density is None:
            return [self.cells * "0", self.cells * "."]
        cars = round(self.cells * self.density)
        return [measuring.spread(self.cells, cars, seed) for seed in range(1, self.lanes + 1)]

    def cars(self) -> int:
        """The number of cars on all lanes."""
        return sum(len(lane) - lane.count(".") for lane in self.lane_texts())

    def write(self, path: str, steps: int) -> str:
        """Write a job of this road into a file, and return its path."""
        return measuring.write(path, measuring.job(self.lane_texts(), self.rule, steps))

    @property
    def is_random(self) -> bool:
        """Whether the rule needs random numbers."""
        return self.rule != DETERMINISTIC

    @property
    def size(self) -> Size:
        """The cells per lane and the density."""
        return self.cells, self.density

    @property
    def is_measured_wide(self) -> bool:
        """Whether the road is also measured with eight words in parallel."""
        return self.is_random and self.size in (FIVE_CARS, LONG)

    @property
    def max_ratios(self) -> dict[str, float]:
        """The wanted maximum of the time of trlab over the time of other programs, by their names."""
        return MAX_RATIOS.get((self.rule, self.size), {})


def roads(is_quick: bool) -> Iterator[Road]:
    """The roads that are measured; a quick measurement takes only those with a wanted value."""
    sizes = [FIVE_CARS, *itertools.product(CELLS, DENSITIES)]
    for (rule, lanes), size in itertools.product(LANES_OF_RULE.items(), sizes):
        road = Road(rule, lanes, *size)
        if road.max_ratios or not is_quick:
            yield road
    if not is_quick:
        yield from (heap(1000), heap(16000))


def heap(cells: int) -> Road:
    """A full lane next to an empty one."""
    return Road(HEAP_RULE, 2, cells, None)


def fitting_steps(road: Road, path: str, seconds_of: Callable[[str], float]) -> int:
    """The number of steps with which a run takes about SECONDS; `seconds_of` measures the run of a job in a file."""
    steps = 1
    while steps < MAX_STEPS:
        seconds = seconds_of(road.write(path, steps))
        if seconds > SECONDS / 4:
            return max(1, min(MAX_STEPS, int(steps * SECONDS / seconds)))
        steps *= 8
    return MAX_STEPS


def by_numba(command: list[str], path: str) -> dict[str, Run]:
    """The runs in numba, which measure their own times."""
    tuned = [*command, "tuned"]
    return {"numba": Run(command, path, measuring.own_time), TUNED + "numba": Run(tuned, path, measuring.own_time)}


def by_numpy(programs: Programs, road: Road, folder: str, times: int) -> measuring.Time:
    """The time per car and step in NumPy, with a number of steps of its own. Without random numbers its output is trlab's."""
    command, path = programs.numpy, os.path.join(folder, "for NumPy")
    steps = fitting_steps(road, path, lambda text: measuring.own_time(command, text).clock)
    road.write(path, steps)
    if not road.is_random:
        measuring.compare([[programs.trlab, "run"], command], path, folder)
    best = measuring.best_of({"NumPy": Run(command, path, measuring.own_time)}, times // measuring.REPEATS)["NumPy"]
    return time_per_move(best, NO_TIME, road.cars() * steps)


def commands_of(programs: Programs, road: Road) -> dict[str, list[str]]:
    """The commands that simulate a road and write the same bytes, by their names; for some roads also with eight words in
    parallel, if the processor has AVX2. The command in numba draws different random numbers."""
    commands = {"trlab": [programs.trlab, "run"], "plain": [programs.plain], "interpreter": [programs.interpreter]}
    if road.is_measured_wide and programs.wide_plain != programs.plain:
        commands |= {WIDE + "plain": [programs.wide_plain], WIDE + "interpreter": [programs.wide_interpreter]}
    if programs.numba and not road.is_random:
        commands["numba"], commands[TUNED + "numba"] = programs.numba, [*programs.numba, "tuned"]
    return commands


def measured(programs: Programs, road: Road, times: int, folder: str) -> Row:
    """The row of a road, after the outputs of all programs have been compared."""
    path, path_of_start = os.path.join(folder, "job"), os.path.join(folder, "no steps")
    commands = commands_of(programs, road)
    steps = fitting_steps(road, path, lambda text: measuring.timed(commands["trlab"], text).cpu)
    road.write(path, min(steps, max(1, COMPARED_BYTES // (road.lanes * road.cells))))
    measuring.compare(list(commands.values()), path, folder)
    commands = {name: command for name, command in commands.items() if "numba" not in name}
    if road.is_random:
        commands["floor"] = [programs.wide_plain, "floor"]
    road.write(path_of_start, 0)
    road.write(path, steps)
    starts = measuring.best_of({name: Run(command, path_of_start) for name, command in commands.items()}, times)
    runs = measuring.best_of({name: Run(command, path) for name, command in commands.items()}, times)
    if programs.numba and road.rule.startswith("nasch"):
        runs |= measuring.best_of(by_numba(programs.numba, path), times // measuring.REPEATS)
        starts |= {"numba": NO_TIME, TUNED + "numba": NO_TIME}
    times_per_move = {name: time_per_move(runs[name], starts[name], road.cars() * steps) for name in runs}
    if programs.numpy and road.rule.startswith("nasch"):
        times_per_move["NumPy"] = by_numpy(programs, road, folder, times)
    return row_of(road, times_per_move)


def wanted_ratio(row: Row, name: str, bound: float) -> str:
    """The text of a wanted maximum of the time over that of another program."""
    text = f"{name} at most {bound}"
    return wanted_text(text, row.ratio(name) <= bound) if name in row.times else f"{text} (not measured)"


def row_of(road: Road, times: dict[str, measuring.Time]) -> Row:
    """The row of a road, with its wanted values."""
    title = f"`{road.rule}`" if road.density is not None else f"heap, `{road.rule}`"
    row = Row(title, road.lanes, road.cells, road.cars(), times)
    further = []
    wide = [f"{name} {row.cell(WIDE + name)}" for name in ("plain", "interpreter") if WIDE + name in times]
    if wide:
        further.append(f"with eight words at once {', '.join(wide)}")
    if TUNED + "numba" in times and road.max_ratios:
        further.append(f"numba tuned {row.cell(TUNED + 'numba')}")
    wanted = [wanted_ratio(row, name, bound) for name, bound in road.max_ratios.items()]
    if road.size == FIVE_CARS and road.rule in MAX_NANOSECONDS:
        bound = MAX_NANOSECONDS[road.rule]
        wanted.append(wanted_text(f"at most {bound} ns", times["trlab"].cpu <= bound))
    return row._replace(beside="; ".join(further), wanted=tuple(wanted))


def growth(programs: Programs, times: int, folder: str) -> Row:
    """The row that shows how the time of a step grows with a heap: a large one over a small one, with the same number of steps.
    A run without steps gives the time of the start, which does not count."""
    command, large, small = [programs.trlab, "run"], heap(LARGE_HEAP), heap(SMALL_HEAP)
    steps = fitting_steps(large, os.path.join(folder, "job"), lambda text: measuring.timed(command, text).cpu)
    runs = {}
    for road, steps_of_run in itertools.product((large, small), (steps, 0)):
        path = road.write(os.path.join(folder, f"{road.cells} {steps_of_run}"), steps_of_run)
        runs[road, steps_of_run] = Run(command, path)
    best = measuring.best_of(runs, times)
    time_of_large, time_of_small = (time_per_move(best[road, steps], best[road, 0], steps) for road in (large, small))
    ratio = time_of_large.cpu / time_of_small.cpu
    per_move = {"trlab": time_per_move(best[large, steps], best[large, 0], steps * large.cells)}
    beside = f"{ratio:.2f} times a step of {SMALL_HEAP} cells"
    wanted = (wanted_text(f"at most {MAX_GROWTH} times", ratio <= MAX_GROWTH),)
    return Row(f"heap, `{HEAP_RULE}`", 2, large.cells, large.cars(), per_move, beside, wanted)


def memory(programs: Programs, times: int, folder: str) -> Row:
    """The row of the memory of a lane of 100000 cells with 30000 cars."""
    road = Road(BRAKING, 1, *LONG)
    path = road.write(os.path.join(folder, "job"), 300)
    peak = max(measuring.memory([programs.trlab, "run"], path) for _ in range(times)) / 1e6
    wanted = (wanted_text("at most 3 MB", peak <= 3),)
    return Row(f"memory, `{road.rule}`", 1, road.cells, road.cars(), {}, f"{peak:.2f} MB in all", wanted)


def rows(programs: Programs, is_quick: bool, folder: str) -> Iterator[Row]:
    """All rows of one road."""
    times = 10 if is_quick else 20
    for road in roads(is_quick):
        yield measured(programs, road, times, folder)
    yield growth(programs, times, folder)
    yield memory(programs, times, folder)
