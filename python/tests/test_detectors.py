"""Detectors, compared with trajectories and with a count that moves each car cell by cell."""
import importlib.util
import math
import os
import subprocess
import sys
import unittest
import weakref
from collections.abc import Callable, Iterator, Sequence
from fractions import Fraction
from pathlib import Path
from typing import Union

import trlab
from tests.random_jobs import Decorator, length_of, needs_hypothesis
from tests.skips import needs
from trlab import Job, Nasch, ParameterError, Rickert, Snapshot, Snapshots, SnapshotsError, random_cells

if importlib.util.find_spec("hypothesis"):
    from hypothesis import given, strategies as some
    from tests.random_jobs import EXAMPLES, jobs

    # Jobs of 27 steps, of which at most 3 are left out, so that at least 24 remain.
    ROADS: Decorator = given(jobs(27), some.integers(0, 3))
else:
    ROADS = EXAMPLES = needs_hypothesis


class Lane(str):
    """A lane of which a test can see whether it still exists."""


def cell_by_cell(snapshots: Sequence[Snapshot]) -> Iterator[tuple[int, int, int, int]]:
    """The step, cell, lane and speed of each car that passes the end of a cell, from the path of each car in each
    step."""
    for snapshot in snapshots[1:]:
        length = len(snapshot.lanes[0])
        for lane, cells in enumerate(snapshot.speeds()):
            for cell, speed in enumerate(speed or 0 for speed in cells):
                for _ in range(speed):
                    cell = (cell - 1) % length
                    yield snapshot.step, cell, lane, speed


def mean(values: Sequence[Union[int, Fraction]]) -> Union[Fraction, float]:
    """The exact mean, or NaN if there are no values."""
    return sum(map(Fraction, values)) / len(values) if values else math.nan


@needs("pandas")
class Detectors(unittest.TestCase):
    @EXAMPLES
    @ROADS
    def test_passages_are_those_of_each_car(self, job: Job, first: int) -> None:
        snapshots, cells = job.run(first=first), [*range(length_of(job))]
        passings = trlab.passings(iter(snapshots), cells)
        expected = sorted(cell_by_cell(snapshots))
        self.assertEqual([*passings[["step", "cell", "lane", "speed"]].itertuples(index=False, name=None)], expected)
        self.assertEqual(len({row[:3] for row in expected}), len(expected))  # at most one car in a step
        before: dict[tuple[int, int], int] = {}
        for step, cell, lane, _, headway in passings.itertuples(index=False):
            if (cell, lane) in before:
                self.assertEqual(headway, step - before[cell, lane])
            else:
                self.assertTrue(math.isnan(headway))
            before[cell, lane] = step

    @EXAMPLES
    @ROADS
    def test_windows_are_sums_over_passages(self, job: Job, first: int) -> None:
        # 24 steps, which are whole windows of 1, 6 and 24 steps.
        snapshots, cells = job.run(first=first)[:25], [*{0, length_of(job) // 2, length_of(job) - 1}]
        passed = [*cell_by_cell(snapshots)]
        for every in 1, 6, 24:
            table = trlab.detectors(iter(snapshots), cells, every)
            self.assertEqual(len(table), len(cells) * job.lanes * 24 // every)
            self.assertEqual(table.index.names, ["cell", "lane", "step"])
            for (cell, lane, end), row in table.iterrows():
                before = [step for step, *place, _ in passed if place == [cell, lane] and step <= end]
                speeds = [
                    speed for step, *place, speed in passed if place == [cell, lane] and end - every < step <= end
                ]
                headways = [after - then for then, after in zip(before, before[1:]) if after > end - every]
                steps = snapshots[end - every - first + 1:end - first + 1]
                expected: dict[str, Union[Fraction, float]] = {
                    "count": len(speeds), "flow": Fraction(len(speeds), every), "time_mean_speed": mean(speeds),
                    "harmonic_mean_speed": 1 / mean([Fraction(1, speed) for speed in speeds]),
                    "mean_time_headway": mean(headways),
                    "occupancy": mean([snapshot.lanes[lane][cell] != "." for snapshot in steps]),
                }
                self.assertEqual(sorted(expected), sorted(table.columns))
                for name, value in expected.items():
                    is_same = math.isnan(row[name]) if math.isnan(value) else abs(float(value) - row[name]) < 1e-12
                    self.assertTrue(is_same, (name, cell, lane, end, value, row[name]))
                self.assertFalse(row.harmonic_mean_speed > row.time_mean_speed + 1e-12)

    @EXAMPLES
    @ROADS
    def test_headways_are_those_of_trajectories(self, job: Job, first: int) -> None:
        snapshots = job.run(first=first)
        paths, passed = snapshots.trajectories(), trlab.passings(snapshots, [*range(length_of(job))])
        for cell in range(length_of(job)):
            for lane in range(job.lanes):
                here = passed[(passed.cell == cell) & (passed.lane == lane)]
                self.assertEqual(paths.time_headways(cell, lane).tolist(), here.time_headway[1:].tolist())

    def test_all_cells_together_count_the_distance_and_the_cars(self) -> None:
        job = Job(
            limit=5, length=60, lanes=2, density=0.3, rule=Rickert("1/4", 1), start=random_cells(1), steps=90, key=2
        )
        table = job.detectors(range(60), every=30, first=30)
        for window in job.series(every=30, first=30):
            here = table.xs(window.step, level="step")
            self.assertEqual(here["count"].sum(), window.distance)
            self.assertAlmostEqual(here["flow"].mean(), window.flow)
            self.assertAlmostEqual(here["occupancy"].mean(), window.density)
            self.assertEqual(here.xs(1, level="lane")["count"].sum(), window.distance1)
        self.assertEqual(sorted({*table.index.get_level_values("step")}), [60, 90])

    def test_a_road_without_cars(self) -> None:
        (row,) = Job(limit=5, length=9, cars=0, rule=Nasch(0), steps=4).detectors([3], every=4).itertuples(index=False)
        self.assertEqual(row.count, 0)
        self.assertEqual(row.flow, 0)
        self.assertEqual(row.occupancy, 0)
        self.assertTrue(all(map(math.isnan, (row.time_mean_speed, row.harmonic_mean_speed, row.mean_time_headway))))
        empty = trlab.passings(Job(limit=5, length=9, cars=0, rule=Nasch(0), steps=4).run(), [3])
        self.assertEqual(len(empty), 0)
        self.assertEqual(empty.dtypes["step"], "int64")

    def test_few_snapshots_are_kept(self) -> None:
        """Of the snapshots of a long run the detectors keep the last one at most, and not all."""
        job = Job(limit=5, length=9, cars=3, rule=Nasch(0), steps=400)
        lanes: list[weakref.ref[Lane]] = []
        kept: list[int] = []

        def snapshots() -> Iterator[Snapshot]:
            for snapshot in job.snapshots():
                kept.append(sum(lane() is not None for lane in lanes))
                lane = Lane(snapshot.lanes[0])
                lanes.append(weakref.ref(lane))
                yield snapshot._replace(lanes=(lane,))

        self.assertEqual(len(trlab.detectors(snapshots(), [0], every=100)), 4)
        self.assertEqual(max(kept), 1)

    def test_wrong_cells_windows_and_snapshots(self) -> None:
        snapshots = Job(limit=5, length=20, cars=5, rule=Nasch("1/4"), steps=30).run()
        for cells in [20], [-1], [], [1, 1], [1.5], ["1"]:
            message = "a cell must be|must be different cells"
            self.assertRaisesRegex(ParameterError, message, trlab.detectors, snapshots, cells, 10)
            self.assertRaisesRegex(ParameterError, message, trlab.passings, snapshots, cells)
        for every in 0, -1, 7, 31, 1.5:
            message = "every must be|are not whole windows"
            self.assertRaisesRegex(ParameterError, message, trlab.detectors, snapshots, [0], every)
        with self.assertRaisesRegex(ParameterError, "must be a list of cells, for example .0, 100., not 3"):
            trlab.detectors(snapshots, 3, 10)
        with self.assertRaisesRegex(ParameterError, "30 steps are not whole windows of 7 steps"):
            trlab.detectors(snapshots, [0], 7)
        other = Job(limit=5, length=20, cars=6, rule=Nasch("1/4"), steps=30).run()
        longer = Job(limit=5, length=21, cars=5, rule=Nasch("1/4"), steps=30).run()
        for wrong_snapshots, message in (
            (snapshots[:10] + snapshots[20:], "step 20 follows step 9"), (snapshots[::2], "step 2 follows step 0"),
            (snapshots[:5] + other[5:], "step 5 has another size or number"),
            (snapshots[:5] + longer[5:], "step 5 has another size"),
            (Snapshots(), "no snapshots"),
            (Snapshots([Snapshot(0, (".0",)), Snapshot(1, (".?",))]), "neither a speed nor a dot"),
        ):
            calls: list[Callable[[], object]] = [
                lambda: trlab.detectors(wrong_snapshots, [0], 1), lambda: trlab.passings(wrong_snapshots, [0]),
            ]
            for call in calls:
                with self.assertRaisesRegex(SnapshotsError, message):
                    call()


WITHOUT_LIBRARIES = """
import sys
sys.modules.update(numpy=None, pandas=None)
import trlab
from trlab import Job, MissingLibraryError, Nasch

job = Job(limit=5, length=9, cars=2, rule=Nasch(0), steps=40)
snapshots, table = job.run(), job.series()
for call in (
    snapshots.trajectories, snapshots.speeds, snapshots.occupied, snapshots.to_pandas, table.to_numpy, table.to_pandas,
    lambda: job.detectors([0], every=40), lambda: trlab.follow, lambda: trlab.detectors, lambda: trlab.passings,
    lambda: trlab.Trajectories,
):
    try:
        print("no error", call())
    except MissingLibraryError as error:
        print(error)
print(table[-1].flow, table.drift().is_drifting, len(table.text()))
print("<html" in snapshots.html(), "41 snap" in snapshots._repr_html_())
"""
ENVIRONMENT = {**os.environ, "PYTHONPATH": str(Path(trlab.__file__).parents[1])}
JOB = Job(limit=5, length=9, cars=2, rule=Nasch(0), steps=40)
"""The job of this script."""


class MissingLibraries(unittest.TestCase):
    def test_each_call_names_the_missing_library(self) -> None:
        command = [sys.executable, "-c", WITHOUT_LIBRARIES]
        process = subprocess.run(command, capture_output=True, text=True, env=ENVIRONMENT, check=True)
        *errors, numbers, pages = process.stdout.splitlines()
        self.assertEqual(len(errors), 11)  # one for each call of the script
        for error in errors:
            self.assertRegex(error, r"^this needs numpy\b.*: pip install .+$")
        # At the end the two cars move through all 7 empty cells in each step.
        self.assertEqual(numbers, f"{7 / 9} True {len(JOB.series().text())}")
        self.assertEqual(pages, "True True")
