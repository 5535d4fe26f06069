"""Jobs that continue: from a snapshot, and beyond the steps of one input."""
import hashlib
import unittest
from collections.abc import Iterator
from contextlib import contextmanager
from dataclasses import replace
from typing import Any
from unittest import mock

from tests.by_pictures import windows
from tests.skips import needs
from trlab import Job, Nasch, Own, Snapshot, Rickert, SlowToStart, Sweep, Table, Window, jammed, random_cells
from trlab._inputs import long_jobs
from trlab._inputs.arguments import RunOptions
from trlab._results.tables import point_of
from trlab._runs.calls import ask_by_line

HALF_OF_GAP = Own("motion\nget r0, gap\ndiv r0, r0, 2\nget r1, limit\nmin r0, r0, r1\ngo r0\n")
ONE = Job(
    limit=5, length=60, density=0.3, start=random_cells(1), rule=Nasch(0.25), steps=50, key=7,
    at={10: Nasch(0.5), 30: HALF_OF_GAP},
)
TWO = Job(
    limit=3, length=40, lanes=2, cars=20, start=random_cells(2), rule=Rickert(0.25, 1), steps=50, at={35: HALF_OF_GAP}
)


def digest(key: int, step: int) -> str:
    return hashlib.sha256(f"trlab continued {key:064x} {step}".encode()).hexdigest()


@contextmanager
def short_inputs(steps: int) -> Iterator[None]:
    """Inputs of at most this number of steps."""
    with mock.patch("trlab._inputs.jobs.MAX_STEPS", steps), mock.patch("trlab._inputs.long_jobs.MAX_STEPS", steps):
        yield


class Continued(unittest.TestCase):
    def test_a_continued_job_begins_with_the_snapshot(self) -> None:
        for job in ONE, TWO:
            snapshots = job.run()
            for snapshot in snapshots[0], snapshots[29], snapshots[-1]:
                first, *later = job.continued(snapshot).run()
                self.assertEqual(first.step, 0)
                self.assertEqual(first.lanes, snapshot.lanes)
                self.assertEqual(len(later), job.steps)

    @needs("numpy")
    def test_cars_keep_their_order_and_number(self) -> None:
        snapshots = ONE.run()
        continued = ONE.continued(snapshots[-1]).run()[1:]
        both = snapshots + [snapshot._replace(step=50 + snapshot.step) for snapshot in continued]
        self.assertEqual({len(snapshot.lanes[0].replace(".", "")) for snapshot in both}, {18})
        # Every car of every snapshot came from the cell of a car before it, as many cells behind as its speed says.
        both.trajectories()
        # The first snapshot does not follow the last one.
        wrong = both[:51] + [both[0]._replace(step=51)]
        self.assertRaisesRegex(ValueError, "the cars of step 51 do not come from those of step 50", wrong.trajectories)

    def test_a_continued_job_has_the_rules_of_the_rest(self) -> None:
        snapshots, last = ONE.run(), Nasch(0.5)
        for step, rule, at in (
            (0, Nasch(0.25), {10: last, 30: HALF_OF_GAP}), (9, Nasch(0.25), {1: last, 21: HALF_OF_GAP}),
            (10, last, {20: HALF_OF_GAP}),
        ):
            job = ONE.continued(snapshots[step])
            self.assertEqual(job.rule, rule)
            self.assertEqual(dict(job.at), at)
        self.assertEqual(ONE.continued(snapshots[30]).rule, HALF_OF_GAP)
        self.assertEqual(len(ONE.continued(snapshots[30]).at), 0)
        self.assertEqual(dict(ONE.continued(snapshots[5], steps=5).at), {})
        self.assertEqual(dict(ONE.continued(snapshots[5], steps=6).at), {5: last})
        at_once = replace(ONE, at={0: last})
        self.assertEqual(at_once.continued(snapshots[0]).rule, last)
        self.assertEqual(dict(at_once.continued(snapshots[0]).at), {})

    def test_the_key_of_a_continued_job_is_derived(self) -> None:
        snapshot = ONE.run()[20]
        self.assertEqual(ONE.continued(snapshot).key, digest(7, 20))
        self.assertEqual(ONE.continued(snapshot, key=8).key, 8)
        self.assertEqual(ONE.continued(snapshot).steps, 50)
        self.assertEqual(ONE.continued(snapshot, steps=3).steps, 3)
        # The same key draws the words of the steps 0, 1, and so on again; another key does not.
        same_key = ONE.continued(ONE.run()[0], key=ONE.key).run()
        another_key = ONE.continued(ONE.run()[0]).run()
        lanes = [snapshot.lanes for snapshot in ONE.run()]
        self.assertEqual([snapshot.lanes for snapshot in same_key], lanes)
        self.assertNotEqual([snapshot.lanes for snapshot in another_key], lanes)

    def test_a_snapshot_beyond_the_run_is_rejected(self) -> None:
        self.assertRaisesRegex(
            ValueError, "snapshot must be between 0 and 50, not 51", ONE.continued, Snapshot(51, ("0",))
        )


class LongRuns(unittest.TestCase):
    def test_snapshots_are_those_of_the_inputs(self) -> None:
        with short_inputs(20):
            snapshots = TWO.run()
            first = replace(TWO, steps=20, at={}).run()
            second = TWO.continued(first[-1], steps=20).run()
            third = replace(TWO, steps=20, at={}).continued(first[-1], steps=30).continued(second[-1], steps=10).run()
        self.assertEqual([snapshot.step for snapshot in snapshots], list(range(51)))
        self.assertEqual(snapshots[:21], first)
        self.assertEqual([snapshot.lanes for snapshot in snapshots[20:41]], [snapshot.lanes for snapshot in second])
        self.assertEqual(third[0].lanes, second[-1].lanes)

    def test_every_nth_snapshot(self) -> None:
        with short_inputs(20):
            snapshots = TWO.run()
            for every, first in (1, 0), (1, 20), (7, 0), (7, 3), (20, 20), (3, 41), (60, 50):
                self.assertEqual(
                    list(long_jobs.snapshots(TWO, RunOptions(every, first, workers=1))), snapshots[first::every]
                )
                self.assertEqual(TWO.run(every=every, first=first), snapshots[first::every])

    def test_only_the_snapshots_that_are_needed_are_computed(self) -> None:
        calls = []

        def ask(arguments: list[str], text: str) -> Iterator[str]:
            calls.append(arguments)
            return ask_by_line(arguments, text)

        in_jobs = mock.patch("trlab._inputs.jobs.ask_by_line", ask)
        in_long_jobs = mock.patch("trlab._inputs.long_jobs.ask_by_line", ask)
        with short_inputs(20), in_jobs, in_long_jobs:
            self.assertEqual([snapshot.step for snapshot in TWO.snapshots(every=25, first=10)], [10, 35])
            TWO.series(every=40, first=10)
        runs = {tuple(arguments) for arguments in calls if arguments[0] == "run"}
        self.assertEqual(runs, {("run", "--every", "5"), ("run", "--from", "20")})

    def test_rules_take_over_at_their_steps(self) -> None:
        stop, go = Nasch(1), Nasch(0)
        for change in 19, 20, 21, 40, 45:
            job = Job(limit=1, length=60, cars=1, rule=go, steps=50, at={change: stop})
            with short_inputs(20):
                stopped = [snapshot.step for snapshot in job.snapshots() if snapshot.speeds()[0].count(0)]
            self.assertEqual(stopped, [0, *range(change + 1, 51)])

    def test_windows_are_those_of_the_snapshots(self) -> None:
        for job in ONE, TWO:
            with short_inputs(20):
                snapshots = job.run()
                for every, first in (
                    (1, 0), (5, 0), (7, 1), (10, 20), (25, 0), (5, 25), (40, 10), (3, 41), (47, 3), (50, 0),
                ):
                    table = job.series(every=every, first=first, workers=2)
                    with self.subTest(every=every, first=first):
                        self.assertEqual(table, list(windows(snapshots, every, first)))
                        self.assertIs(type(table), Table)
                        self.assertEqual(table.kind, Window)

    def test_a_run_can_be_left(self) -> None:
        with short_inputs(20):
            snapshots: Any = ONE.snapshots()
            self.assertEqual([next(snapshots).step for _ in range(25)], list(range(25)))
            snapshots.close()

    def test_a_job_of_too_many_steps_has_no_file(self) -> None:
        job = replace(ONE, steps=500001)
        self.assertRaisesRegex(ValueError, "at most 500000 steps, and this job has 500001", job.text)
        self.assertEqual(hash(job), hash(replace(job)))
        self.assertIn("steps 500000\n", replace(job, steps=500000).text())

    def test_numbers_of_windows_are_checked(self) -> None:
        job = replace(ONE, steps=500001)
        self.assertRaisesRegex(ValueError, "every must be between 1 and 500001, not 0", job.series, every=0)
        self.assertRaisesRegex(TypeError, "first must be a whole number", job.series, first=1.5)

    def test_beyond_the_largest_input(self) -> None:
        job = Job(limit=1, length=3, cars=1, rule=Nasch(0.5), steps=500015, at={499990: Nasch(0), 500010: Nasch(1)})
        before, seam, after = job.series(every=10, first=499985)
        self.assertEqual([window.step for window in (before, seam, after)], [499995, 500005, 500015])
        self.assertEqual(seam.distance, 10)
        self.assertEqual(seam.stopped, 0)
        self.assertEqual(seam.flow_millionths, 333333)
        self.assertEqual(after.distance, 5)
        self.assertEqual(after.stopped, 5)
        self.assertEqual(after.cars, 1)
        self.assertEqual(after.steps, 10)
        self.assertTrue(5 <= before.distance <= 10)


class LongSweeps(unittest.TestCase):
    def test_points_are_counted_beyond_an_input(self) -> None:
        sweep = Sweep(limit=3, length=40, rule=SlowToStart(0.25, 0.5), warm=13, measure=30, cars=[9], start=jammed)
        with short_inputs(20):
            (point,) = sweep.sweep()
            (window,) = windows(sweep.jobs()[0].run(), every=30, first=13)
        self.assertEqual(point, point_of(window))
