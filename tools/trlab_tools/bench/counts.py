"""Rows of series, which count the cars in windows and write no snapshots, and of the memory of a large sweep."""
import os
from collections.abc import Iterator

from . import measuring
from .rows import Programs, Row, time_per_move, wanted_text

WINDOWS = 500_000  # of one step each, the maximum of a series
CELLS = 100_000
CARS = 30_000  # per lane
STEPS = 300
LARGEST_SWEEP = 200, 200_000  # points, and cars per point


def texts_of(rule: str, lanes: int, folder: str) -> list[str]:
    """Jobs of a road with evenly spaced cars, one of STEPS steps and one of none, and sweeps of the same road with one
    step more each."""
    cars = lanes * CARS
    start = measuring.even(CELLS, cars, lanes)
    jobs = [measuring.job(start, rule, steps) for steps in (STEPS, 0)]
    sweeps = [measuring.sweep(rule, CELLS, [cars], steps, lanes) for steps in (STEPS + 1, 1)]
    return [measuring.write(os.path.join(folder, f"text {number}"), text) for number, text in enumerate(jobs + sweeps)]


def one_window(programs: Programs, rule: str, lanes: int, times: int, folder: str) -> Row:
    """The row of a series with one window, compared with a run, which writes snapshots, and a sweep, which does not."""
    job, empty_job, sweep, short_sweep = texts_of(rule, lanes, folder)
    series, a_run, a_sweep = ["series", "--every", str(STEPS)], ["run"], ["sweep"]
    inputs = {"series": (series, job, empty_job), "a run": (a_run, job, empty_job), "a sweep": (a_sweep, sweep, short_sweep)}
    runs, starts = {}, {}
    for name, (words, text, short_text) in inputs.items():
        runs[name] = measuring.Run([programs.trlab, *words], text)
        starts[name] = measuring.Run([programs.trlab, *words], short_text)
    times_of_runs, times_of_starts = measuring.best_of(runs, times), measuring.best_of(starts, times)
    cars = lanes * CARS
    moves = {name: time_per_move(times_of_runs[name], times_of_starts[name], cars * STEPS) for name in inputs}
    ratios = {name: moves["series"].cpu / moves[name].cpu for name in ("a run", "a sweep")}
    beside = ", ".join(f"{name} {moves[name].cpu:.1f} ({ratio:.2f})" for name, ratio in ratios.items())
    wanted = (wanted_text("a sweep at most 1.02", ratios["a sweep"] <= 1.02),)
    return Row(f"series of one window, `{rule}`", lanes, CELLS, cars, {"trlab": moves["series"]}, beside, wanted)


def many_windows(programs: Programs, times: int, folder: str) -> Row:
    """The row of a series whose windows are single steps of one car, compared with its run."""
    path = measuring.write(os.path.join(folder, "windows"), measuring.job(["0" + 9 * "."], measuring.BRAKING, WINDOWS))
    runs = {word: measuring.Run([programs.trlab, word], path) for word in ("series", "run")}
    moves = {word: time_per_move(time, measuring.NO_TIME, WINDOWS) for word, time in measuring.best_of(runs, times).items()}
    ratio = moves["series"].cpu / moves["run"].cpu
    beside, wanted = f"a run {moves['run'].cpu:.1f} ({ratio:.2f})", (wanted_text("a run at most 3", ratio <= 3),)
    return Row(f"series of {WINDOWS} windows, `{measuring.BRAKING}`", 1, 10, 1, {"trlab": moves["series"]}, beside, wanted)


def memory(programs: Programs, folder: str) -> Row:
    """The row of the memory of the largest sweep."""
    points, cars = LARGEST_SWEEP
    path = measuring.write(os.path.join(folder, "points"), measuring.sweep(measuring.BRAKING, CELLS, points * [cars], 1, 2))
    peak = measuring.memory([programs.trlab, "sweep"], path) / 1e6
    title, wanted = f"memory, sweep of {points} points, `{measuring.BRAKING}`", (wanted_text("at most 150 MB", peak <= 150),)
    return Row(title, 2, CELLS, points * cars, {}, f"{peak:.1f} MB in all", wanted)


def rows(programs: Programs, is_quick: bool, folder: str) -> Iterator[Row]:
    """All rows of series and of the memory of a sweep. Each has a wanted value."""
    times = 3 if is_quick else 10
    for rule, lanes in measuring.LANES_OF_RULE.items():
        yield one_window(programs, rule, lanes, times, folder)
    yield many_windows(programs, times, folder)
    yield memory(programs, folder)
