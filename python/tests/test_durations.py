"""The time until an event: the end of the first window with the event, after which the program is stopped."""
import signal
import tempfile
import unittest
from collections.abc import Callable
from dataclasses import replace
from pathlib import Path
from typing import Any
from unittest import mock

import trlab
from tests.skips import needs
from tests.test_continuing import short_inputs
from trlab import (
    Duration, IncompleteOutputError, Job, Nasch, ParameterError, RejectedInputError, Rickert, Window, moving, random_cells,
)
from trlab._runs import processes
from trlab._runs.children import Child

JOB = Job(limit=5, length=100, cars=12, start=moving, rule=Nasch(0.25), steps=60, key=3)
LONG = replace(JOB, length=1000, cars=100, steps=500000)


def stopped(window: Window) -> bool:
    return window.stopped > 1


class RecordedProcesses:
    """The processes of the program that a block starts."""

    def __enter__(self) -> list[Child]:
        self.processes: list[Child] = []

        def start(*arguments: Any, **options: Any) -> Child:
            self.processes.append(Child(*arguments, **options))
            return self.processes[-1]

        self.patch = mock.patch.object(processes, "Child", start)
        self.patch.start()
        return self.processes

    def __exit__(self, *_: object) -> None:
        self.patch.stop()


class Durations(unittest.TestCase):
    def expected(self, job: Job, condition: Callable[[Window], bool], every: int, first: int) -> Duration:
        ends = [window.step for window in job.series(every=every, first=first) if condition(window)]
        return Duration(ends[0] - first, True) if ends else Duration(job.steps - first, False)

    def test_the_time_is_the_end_of_the_first_window_with_the_event(self) -> None:
        for every, first in (1, 0), (2, 0), (5, 10), (60, 0), (1, 59), (7, 4):
            for condition in stopped, lambda window: window.stopped > 20, lambda window: True, lambda window: False:
                duration = JOB.time_until(condition, every=every, first=first)
                self.assertEqual(duration, self.expected(JOB, condition, every, first))
                self.assertEqual(type(duration), Duration)
        self.assertEqual(JOB.time_until(lambda window: False), Duration(time=60, observed=False))
        self.assertEqual(JOB.time_until(lambda window: window.step == 60), Duration(time=60, observed=True))

    def test_windows_must_fill_the_run(self) -> None:
        wrong_options: list[dict[str, Any]] = [{"every": 7}, {"first": 60}, {"every": 61}, {"every": 0}, {"first": 1.5}]
        for options in wrong_options:
            self.assertRaisesRegex(
                ParameterError, "(every|first) must be|no window of .* fits|are not whole windows", JOB.time_until,
                stopped, **options,
            )

    def test_jobs_of_more_steps_than_one_input_has(self) -> None:
        job = replace(JOB, at={25: Nasch(1)})
        for every, first in (1, 0), (6, 0), (15, 0), (20, 20), (4, 48):
            for condition in (
                stopped, lambda window: window.distance == 0, lambda window: window.step > 38, lambda window: False,
            ):
                with short_inputs(20):
                    self.assertEqual(
                        job.time_until(condition, every=every, first=first), self.expected(job, condition, every, first)
                    )

    def test_the_program_stops_with_the_event(self) -> None:
        with RecordedProcesses() as started:
            self.assertTrue(LONG.time_until(stopped).observed)
        self.assertEqual([process.returncode for process in started], [-signal.SIGKILL])

    def test_the_parts_after_the_event_do_not_run(self) -> None:
        with short_inputs(20), RecordedProcesses() as started:
            self.assertEqual(JOB.time_until(lambda window: window.step == 5), Duration(time=5, observed=True))
        self.assertEqual(len(started), 1)

    def test_an_exception_of_the_condition_ends_the_program(self) -> None:
        with RecordedProcesses() as started:
            self.assertRaises(ZeroDivisionError, LONG.time_until, lambda window: 1 / 0)
        self.assertEqual([process.returncode for process in started], [-signal.SIGKILL])

    def test_a_condition_is_true_or_false(self) -> None:
        results: list[Any] = [0, 1, None, "no", [], (), 1.5]
        for result in results:
            self.assertRaisesRegex(
                ParameterError, "must return True or False, not ", LONG.time_until, lambda window: result
            )
        for condition in None, True, "window.stopped > 0", 5:
            self.assertRaisesRegex(ParameterError, "must be a function of a window", JOB.time_until, condition)

    @needs("numpy")
    def test_truth_values_of_numpy(self) -> None:
        import numpy

        of_numpy: Any = lambda window: numpy.int64(window.stopped) > 1
        self.assertEqual(JOB.time_until(of_numpy), JOB.time_until(stopped))
        for result in numpy.array([True]), numpy.array([True, False]), numpy.int64(1), numpy.float64(0):
            self.assertRaisesRegex(
                ParameterError, "must return True or False, not ", JOB.time_until, lambda window: result
            )

    def test_a_duration_is_not_kept_in_a_cache(self) -> None:
        with tempfile.TemporaryDirectory() as folder, RecordedProcesses() as started:
            durations = dict(
                trlab.results([JOB, LONG], call=lambda job: job.time_until(stopped), cache=folder, at_once=1)
            )
            self.assertEqual(list(Path(folder).iterdir()), [])
            self.assertEqual(durations, {0: JOB.time_until(stopped), 1: LONG.time_until(stopped)})
        # The long run was stopped with its event.
        series = [process for process in started if isinstance(process.args, list) and process.args[1] == "series"]
        self.assertIn(-signal.SIGKILL, [process.returncode for process in series])

    def test_a_cut_output_is_an_error(self) -> None:
        heading = ",".join(trlab.Window._fields).replace("flow_millionths", "flow")
        lines = [f"{heading}\n", "1," * (len(trlab.Window._fields) - 1) + "1\n"]
        with mock.patch("trlab._inputs.jobs.ask_by_line", lambda arguments, text: iter(lines)):
            self.assertRaisesRegex(IncompleteOutputError, "after 1 of 60 steps", JOB.time_until, lambda window: False)

    def test_a_rejected_job_and_one_that_is_not(self) -> None:
        self.assertRaisesRegex(
            RejectedInputError, "fault line 5 cause 4", replace(JOB, rule=Rickert(0, 0)).time_until, stopped
        )
        duration = replace(JOB, start=random_cells(1)).time_until(stopped, every=60)
        self.assertEqual(duration, Duration(time=60, observed=True))


if __name__ == "__main__":
    unittest.main()
