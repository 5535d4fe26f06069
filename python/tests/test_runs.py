"""Runs of the program: the results contain its output, and its rejections are raised."""
import os
import signal
import tempfile
import unittest
import warnings
from collections.abc import Callable
from dataclasses import replace
from pathlib import Path
from typing import Any, Optional

from tests.by_pictures import windows
from tests.expected import DEVICE_FAILED, MORE_THAN_THE_GAP, NEEDS_TWO_LANES, QUARTER, WRONG_ARGUMENTS
from tests.processes import replaced_program
from tests.waiting import holds
from trlab import (
    Job, Nasch, Own, ParameterError, Point, ProgramError, RejectedInputError, RenamedError, Rickert, SlowToStart,
)
from trlab import Rule, Snapshots, Sweep, Table, Window
from trlab import check, even, find_program, jammed, moving, random_cells, read_tables, run_all, write_inputs
from trlab._results.tables import point_of
from trlab._runs.calls import ask
from trlab._runs.systems import is_running

EXAMPLES = Path(__file__).resolve().parents[2] / "examples"
HALF = "motion\nget r0, gap\ndiv r0, r0, 2\nget r1, limit\nmin r0, r0, r1\ngo r0\n"


def example(name: str) -> str:
    return (EXAMPLES / name).read_text()


class Sweeps(unittest.TestCase):
    def test_the_example(self) -> None:
        cars = [int(line[5:]) for line in example("fundamental_diagram.sweep").splitlines() if line.startswith("cars ")]
        sweep = Sweep(limit=5, length=1000, rule=Nasch(0.25), warm=200, measure=400, cars=cars)
        self.assertEqual(sweep.text(), example("fundamental_diagram.sweep"))
        table = sweep.sweep(runners=2)
        self.assertEqual(table.text(), example("fundamental_diagram.csv"))
        self.assertEqual(table, Table.read(Point, table.text()))

    def test_the_values_of_a_point(self) -> None:
        point = Point(cars=4, cells=20, steps=10, distance=60, stopped=8, changes=0, flow_millionths=300000)
        self.assertEqual(point.density, 0.2)
        self.assertEqual(point.flow, 0.3)
        self.assertEqual(point.speed, 1.5)
        self.assertEqual(point.stopped_share, 0.2)

    def test_no_other_table_is_read(self) -> None:
        self.assertRaisesRegex(
            ValueError, "not the heading of Windows", Table.read, Window, example("fundamental_diagram.csv")
        )


class Runs(unittest.TestCase):
    def test_the_example(self) -> None:
        two_cars: list[Optional[float]] = [0, None, 0, *7 * [None]]
        job = Job(limit=5, start=two_cars, rule=Nasch(0), steps=4)
        self.assertEqual(job.text(), example("two_cars.job"))
        snapshots = job.run(workers=3)
        text = "".join(
            f"step {snapshot.step}\n" + "".join(lane + "\n" for lane in snapshot.lanes) for snapshot in snapshots
        )
        self.assertEqual(text, example("two_cars.job.out"))
        self.assertEqual(snapshots[4].speeds(), [[None, None, 4, None, None, None, None, 3, None, None]])
        self.assertEqual(list(job.snapshots()), snapshots)

    def test_a_run_can_be_left(self) -> None:
        snapshots: Any = Job(limit=5, length=1000, cars=100, rule=Nasch(0), steps=500000).snapshots()
        self.assertEqual(next(snapshots).step, 0)
        snapshots.close()

    def test_every_nth_snapshot(self) -> None:
        one_lane = Job(limit=5, length=60, density=0.3, start=random_cells(1), rule=Nasch(0.25), steps=50, key=7)
        two_lanes = Job(
            limit=3, length=40, lanes=2, cars=20, start=random_cells(2), rule=Rickert(0.25, 1), steps=50,
            at={35: Nasch(0.5)},
        )
        for job in one_lane, two_lanes:
            each = job.run()
            for every, first in (1, 0), (1, 20), (7, 0), (7, 3), (50, 0), (20, 10), (3, 50), (60, 50):
                with self.subTest(every=every, first=first):
                    shown = job.run(every=every, first=first, workers=2)
                    self.assertEqual(shown, each[first::every])
                    self.assertEqual(list(job.snapshots(every=every, first=first)), shown)
                    self.assertEqual(shown.text(), Snapshots.read(shown.text()).text())

    def test_options_of_a_run(self) -> None:
        job = Job(limit=5, start=[0, None], rule=Nasch(0), steps=5)
        with tempfile.TemporaryDirectory() as folder:
            with replaced_program(folder, f'echo $@ >>{folder}/words\nexec "{find_program()}" "$@"\n'):
                results = [
                    job.run(workers=3), job.run(every=10, first=5, workers=3),
                    list(job.snapshots(workers=2, every=4, first=1)),
                ]
            calls = (Path(folder) / "words").read_text().splitlines()
        self.assertEqual(
            [[snapshot.step for snapshot in snapshots] for snapshots in results], [[0, 1, 2, 3, 4, 5], [5], [1, 5]]
        )
        self.assertEqual(
            calls, ["run --workers 3", "run --every 10 --from 5 --workers 3", "run --every 4 --from 1 --workers 2"]
        )

    def test_numbers_of_steps_are_checked(self) -> None:
        job = Job(limit=5, start=[0, None], rule=Nasch(0), steps=5)
        calls: list[Callable[..., object]] = [job.run, job.series, lambda **options: list(job.snapshots(**options))]
        for options in {"every": 0}, {"every": 500001}, {"first": -1}, {"first": 500001}:
            for call in calls:
                self.assertRaisesRegex(ParameterError, "(every|first) must be between", call, **options)

    def test_more_than_a_pipe_can_hold(self) -> None:
        job = Job(limit=5, length=100000, density=1, lanes=2, rule=Rickert(0, 1), steps=1)
        self.assertEqual([snapshot.lanes for snapshot in job.run()], 2 * [2 * (100000 * "0",)])


class Series(unittest.TestCase):
    JOBS = [
        Job(limit=5, length=60, density=0.3, start=random_cells(1), rule=Nasch(0.25), steps=50, key=7),
        Job(limit=3, length=40, lanes=2, cars=20, start=random_cells(2, None), rule=Rickert(0.25, 1), steps=33),
        Job(limit=12, length=50, lanes=2, cars=20, start=jammed, rule=Own(HALF), steps=40, at={9: Rickert("1/3", 0.5)}),
        Job(limit=5, length=30, cars=10, start=moving, rule=SlowToStart("1/64", 0.75), steps=17, at={3: Own(HALF)}),
        Job(limit=1, length=1, cars=1, rule=Nasch(0), steps=3),
        Job(limit=1, length=1, lanes=2, cars=0, rule=Nasch(0), steps=3),
    ]

    def test_snapshots_have_the_counts_of_a_sweep(self) -> None:
        # On one lane, or if all cars start on lane 0 of two, a job numbers its cars as the first point of a sweep does.
        roads: list[tuple[int, int, Rule]] = [(1, 17, Nasch(0.25)), (2, 20, Rickert(0.25, 0.75))]
        for lanes, cars, rule in roads:
            with warnings.catch_warnings():
                warnings.simplefilter("ignore")
                sweep = Sweep(limit=5, length=60, lanes=lanes, rule=rule, warm=20, measure=100, cars=[cars])
                job = Job(limit=5, length=60, lanes=lanes, rule=rule, steps=120, cars=cars, start=even)
                (point,) = sweep.sweep()
                (window,) = windows(job.snapshots(), every=100, first=20)
            self.assertEqual(point_of(window), point)
            self.assertEqual(window.changes > 0, lanes == 2)

    def test_the_table_is_that_of_the_snapshots(self) -> None:
        for job in self.JOBS:
            widths = [
                (every, first) for every in range(1, job.steps + 1, 3) for first in (0, 1, 5) if first < job.steps
            ]
            for every, first in [(every, first) for every, first in widths if (job.steps - first) % every == 0]:
                table = job.series(every=every, first=first, workers=2)
                self.assertEqual(table, list(windows(job.snapshots(), every, first)))

    def test_options_of_a_series(self) -> None:
        job = self.JOBS[0]
        with tempfile.TemporaryDirectory() as folder:
            with replaced_program(folder, f'echo $@ >{folder}/words\ntee {folder}/text | "{find_program()}" "$@"\n'):
                table = job.series(every=15, first=5, workers=3)
            self.assertEqual((Path(folder) / "words").read_text(), "series --every 15 --from 5 --workers 3\n")
            self.assertEqual((Path(folder) / "text").read_text(), job.text())
        self.assertEqual(table, job.series(every=15, first=5))


class Rejections(unittest.TestCase):
    def test_a_rejected_job(self) -> None:
        with self.assertRaises(RejectedInputError) as caught:
            Job(limit=5, length=10, cars=2, rule=Rickert(0, 1), steps=1).run()
        rejected = caught.exception
        self.assertEqual(rejected.line, 5)
        self.assertEqual(rejected.cause, NEEDS_TWO_LANES)
        self.assertIsNone(rejected.reason)
        self.assertIsNone(rejected.pc)
        self.assertEqual(rejected.answer, "fault line 5 cause 4")
        self.assertIn(f"Cause 4: {rejected.meaning}\n", rejected.explanation)
        self.assertTrue(rejected.explanation.startswith("fault line 5 cause 4\n"))
        self.assertEqual(str(rejected), rejected.explanation)

    def test_a_rejected_sweep(self) -> None:
        with self.assertRaises(RejectedInputError) as caught:
            Sweep(limit=5, length=10, rule=Rickert(0, 1), warm=1, measure=1, cars=[1]).sweep()
        self.assertEqual(caught.exception.line, 6)
        self.assertEqual(caught.exception.cause, NEEDS_TWO_LANES)

    def test_an_accepted_and_a_rejected_program(self) -> None:
        accepted = check(HALF)
        self.assertEqual(accepted.budget, 5)
        self.assertEqual(accepted.program, HALF.removeprefix("motion\n"))
        with self.assertRaises(RejectedInputError) as caught:
            check("motion\nget r0, speed\ngo r0\n")
        rejected = caught.exception
        self.assertEqual(rejected.pc, 1)
        self.assertEqual(rejected.reason, MORE_THAN_THE_GAP)
        self.assertIsNone(rejected.cause)
        self.assertEqual(rejected.line, 3)
        for part in (rejected.meaning, rejected.advice, *rejected.facts):
            self.assertIn(part, str(rejected))
        self.assertEqual(len(rejected.facts), 2)

    def test_the_repair_of_a_rejected_job(self) -> None:
        text = Job(limit=5, length=10, cars=2, rule=Nasch(0), steps=1).text()
        rejected_text = text.replace("nasch 0", "nasch 0.25")
        with self.assertRaises(RejectedInputError) as caught:
            ask(["run"], rejected_text)
        rejected = caught.exception
        self.assertEqual(rejected.line, 5)
        self.assertEqual(rejected.first, 12)
        self.assertEqual(rejected.last, 15)
        self.assertIn("0.25", rejected.found or "")
        [repair] = rejected.repairs
        self.assertEqual(repair["edits"], [{"line": 5, "first": 12, "last": 15, "replacement": str(QUARTER)}])

    def test_arguments_that_are_rejected(self) -> None:
        with self.assertRaises(ProgramError) as caught:
            ask(["run", "--workers", "17"], Job(limit=5, length=10, cars=2, rule=Nasch(0), steps=1).text())
        self.assertEqual(caught.exception.status, WRONG_ARGUMENTS)
        self.assertIn("--workers", caught.exception.message)
        with self.assertRaisesRegex(RenamedError, "`message`"):
            caught.exception.said

    def test_a_run_that_ends_early_is_not_a_result(self) -> None:
        with tempfile.TemporaryDirectory() as folder, replaced_program(
            folder, "echo step 0; echo .; echo full >&2; exit 4\n"
        ):
            with self.assertRaises(ProgramError) as caught:
                Job(limit=5, length=1, cars=0, rule=Nasch(0), steps=1).run()
        self.assertEqual(caught.exception.status, DEVICE_FAILED)
        self.assertEqual(str(caught.exception), "trlab ended with status 4: full")

    def test_a_stopped_run_leaves_no_process(self) -> None:
        """The program interrupts the reader, as Ctrl-C does, when a file says that it has read the first snapshot."""
        def interrupt(*_: object) -> None:
            raise KeyboardInterrupt

        self.addCleanup(signal.signal, signal.SIGALRM, signal.signal(signal.SIGALRM, interrupt))
        with tempfile.TemporaryDirectory() as folder:
            number, is_read = Path(folder) / "number", Path(folder) / "is_read"
            lines = (
                f"echo $$ > {number}; echo step 0; echo .; echo step 1; until [ -e {is_read} ]; do sleep 0.1; done; "
                "kill -ALRM $PPID; exec sleep 1000\n"
            )
            with replaced_program(folder, f'trap "" PIPE; {lines}'):
                snapshots = Job(limit=5, length=1, cars=0, rule=Nasch(0), steps=1).snapshots()
                next(snapshots)
                with self.assertRaises(KeyboardInterrupt):
                    is_read.touch()
                    next(snapshots)
            self.assertTrue(holds(lambda: not is_running(int(number.read_text()))))


class Many(unittest.TestCase):
    def setUp(self) -> None:
        shape = Sweep(limit=5, length=100, rule=Nasch(0.25), warm=10, measure=20, cars=[10, 20])
        self.sweeps = [replace(shape, key=key) for key in range(5)]

    def test_results_are_in_the_order_of_the_inputs(self) -> None:
        self.assertEqual(run_all(self.sweeps, Sweep.sweep, at_once=3), [sweep.sweep() for sweep in self.sweeps])

    def test_the_first_that_fails(self) -> None:
        with self.assertRaisesRegex(RejectedInputError, "fault line 5 cause 4"):
            rules: list[Rule] = [Nasch(0), Rickert(0, 0)]
            run_all([Job(limit=5, length=5, cars=1, rule=rule, steps=1) for rule in rules], Job.run)

    def test_by_files(self) -> None:
        with tempfile.TemporaryDirectory(prefix="a blank ") as folder:
            script = write_inputs(folder, {f"key_{sweep.key}": sweep for sweep in self.sweeps}, program=find_program())
            self.assertEqual((Path(folder) / "key_3.sweep").read_text(), self.sweeps[3].text())
            for task in 1, 4:
                self.assertEqual(os.system(f"SLURM_ARRAY_TASK_ID={task} sh '{script}'"), 0)
            tables = read_tables(folder, Point)
        self.assertEqual(tables, {"key_0": self.sweeps[0].sweep(), "key_3": self.sweeps[3].sweep()})
