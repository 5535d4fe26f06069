"""Many inputs side by side: results as they finish, exceptions, progress, and the executors that run them."""
import io
import logging
import multiprocessing
import shutil
import subprocess
import sys
import tempfile
import threading
import unittest
import warnings
from collections.abc import Callable
from concurrent.futures import Executor, ProcessPoolExecutor, ThreadPoolExecutor
from concurrent.futures.process import BrokenProcessPool
from dataclasses import replace
from pathlib import Path
from typing import Any
from unittest import mock

import trlab
from tests.expected import NEEDS_TWO_LANES
from tests.processes import PYTHON, calls, logging_program
from tests.skips import needs, needs_pools
from tests.waiting import LIMIT
from trlab import Job, Nasch, Point, RejectedInputError, Rickert, Sweep, Table, Window

SHAPE = Sweep(limit=5, length=100, rule=Nasch(0.25), warm=10, measure=20, cars=[10, 20])
SWEEPS = {f"key_{key}": replace(SHAPE, key=key) for key in range(5)}
JOB = Job(limit=5, length=20, cars=4, rule=Nasch(0.25), steps=9)
REJECTED = replace(JOB, rule=Rickert(0, 0))


def windows(job: Job) -> Table[Window]:
    """A call at the top level of a module, which executors of processes can send."""
    return job.series(every=3)


def ends_its_process(job: Job) -> None:
    import os

    os._exit(3)


class Results(unittest.TestCase):
    def test_names_and_results(self) -> None:
        self.assertEqual(dict(trlab.results(SWEEPS)), {name: sweep.sweep() for name, sweep in SWEEPS.items()})
        results = dict(trlab.results([SHAPE, JOB]))
        self.assertEqual(results, {0: SHAPE.sweep(), 1: JOB.run()})
        self.assertEqual(list(trlab.results([])), [])
        self.assertEqual(sorted(trlab.results(range(3), call=lambda number: number + 1)), [(0, 1), (1, 2), (2, 3)])

    def test_the_first_that_finishes_comes_first(self) -> None:
        is_over = threading.Event()

        def call(number: int) -> int:
            self.assertTrue(number > 0 or is_over.wait(LIMIT))
            return number

        results = trlab.results([0, 1, 2], call=call, at_once=2)
        self.assertEqual(sorted([next(results)[0], next(results)[0]]), [1, 2])
        is_over.set()
        self.assertEqual(next(results), (0, 0))

    def test_the_number_of_calls_at_once(self) -> None:
        lock, both_run = threading.Lock(), threading.Barrier(2, timeout=LIMIT)
        running: list[int] = []
        counts: list[int] = []

        def call(number: int) -> None:
            with lock:
                running.append(number)
                counts.append(len(running))
            both_run.wait()
            with lock:
                running.remove(number)

        for executor in None, ThreadPoolExecutor(5):
            counts.clear()
            self.assertEqual(len(list(trlab.results(range(12), call=call, at_once=2, executor=executor))), 12)
            self.assertEqual(max(counts), 2)

    def test_errors_at_once_and_inputs_are_checked(self) -> None:
        self.assertRaisesRegex(ValueError, "errors", trlab.results, SWEEPS, errors="ignore")
        self.assertRaisesRegex(ValueError, "at_once", trlab.results, SWEEPS, at_once=0)
        self.assertRaisesRegex(TypeError, "input 'a'", trlab.results, {"a": "sweep 1"})


class Exceptions(unittest.TestCase):
    def test_a_rejected_input_is_raised(self) -> None:
        with self.assertRaisesRegex(RejectedInputError, "fault line 5 cause 4"):
            list(trlab.results({"good": JOB, "wrong": REJECTED}))
        with self.assertRaisesRegex(RejectedInputError, "fault line 5 cause 4"):
            trlab.run_all([JOB, REJECTED], Job.run)

    def test_a_rejected_input_is_kept(self) -> None:
        results = dict(trlab.results({"good": JOB, "wrong": REJECTED, "also_good": replace(JOB, key=1)}, errors="keep"))
        self.assertEqual(results["good"], JOB.run())
        self.assertEqual(results["also_good"], replace(JOB, key=1).run())
        self.assertIs(type(results["wrong"]), RejectedInputError)
        self.assertEqual(results["wrong"].cause, NEEDS_TWO_LANES)

    def test_an_error_of_the_call_is_kept(self) -> None:
        results = dict(trlab.results([1, 0], call=lambda number: 1 / number, errors="keep"))
        self.assertEqual(results[0], 1)
        self.assertIs(type(results[1]), ZeroDivisionError)

    @needs_pools
    def test_a_broken_executor_is_always_raised(self) -> None:
        with ProcessPoolExecutor(1, multiprocessing.get_context("fork")) as pool:
            with self.assertRaises(BrokenProcessPool):
                list(trlab.results([JOB], call=ends_its_process, executor=pool, errors="keep"))


class Progress(unittest.TestCase):
    def test_a_function_gets_the_numbers_of_inputs(self) -> None:
        calls = []
        list(trlab.results(SWEEPS, progress=lambda done, total: calls.append((done, total))))
        self.assertEqual(calls, [(number, 5) for number in range(1, 6)])

    def test_a_line_for_each_percent(self) -> None:
        with mock.patch.object(sys, "stderr", io.StringIO()) as errors:
            list(trlab.results(range(1000), call=abs, progress=True))
            list(trlab.results(range(3), call=abs))
        lines = errors.getvalue().splitlines()
        self.assertEqual(len(lines), 101)
        self.assertRegex(lines[0], "^1 of 1000 done, 0:0[0-9]$")
        self.assertRegex(lines[-1], "^1000 of 1000 done, ")

    def test_a_line_on_a_terminal(self) -> None:
        with mock.patch.object(sys, "stderr", io.StringIO()) as errors, mock.patch.object(errors, "isatty", lambda: True):
            list(trlab.results(range(3), call=abs, progress=True))
        self.assertRegex(errors.getvalue(), "^\r1 of 3 done, 0:00\r2 of 3 done, 0:00\r3 of 3 done, 0:00\n$")


class Executors(unittest.TestCase):
    """Every executor gives the same results, and all of them keep these in the cache."""

    JOBS = {key: replace(JOB, key=key) for key in range(6)}

    def try_executor(self, pool: Executor) -> None:
        expected = {key: windows(job) for key, job in self.JOBS.items()}
        with tempfile.TemporaryDirectory() as folder:
            inodes = []
            for _ in range(2):
                self.assertEqual(dict(trlab.results(self.JOBS, call=windows, cache=folder, executor=pool)), expected)
                inodes.append({file.name: file.stat().st_ino for file in Path(folder).iterdir()})
        self.assertEqual(len(inodes[0]), len(self.JOBS))
        self.assertEqual(inodes[1], inodes[0])
        results = dict(trlab.results({**self.JOBS, -1: REJECTED}, call=windows, executor=pool, errors="keep"))
        self.assertIs(type(results.pop(-1)), RejectedInputError)
        self.assertEqual(results, expected)

    def test_threads(self) -> None:
        with ThreadPoolExecutor(3) as pool:
            self.try_executor(pool)

    @needs_pools
    def test_processes(self) -> None:
        for way in "fork", "spawn":
            with ProcessPoolExecutor(2, multiprocessing.get_context(way)) as pool:
                with self.subTest(way=way):
                    self.try_executor(pool)

    @needs("joblib")
    @needs_pools
    def test_loky(self) -> None:
        from joblib.externals.loky import get_reusable_executor

        pool = get_reusable_executor(max_workers=2)
        self.try_executor(pool)
        pool.shutdown()

    def try_dask(self, processes: bool) -> None:
        from distributed import Client

        make_client: Callable[..., Any] = Client
        shape = {"n_workers": 2, "threads_per_worker": 1, "dashboard_address": None, "silence_logs": logging.CRITICAL}
        with warnings.catch_warnings():
            warnings.simplefilter("ignore")
            with make_client(**shape, processes=processes) as client, client.get_executor() as pool:
                self.try_executor(pool)

    @needs("distributed")
    def test_dask(self) -> None:
        self.try_dask(processes=False)

    @needs("distributed")
    @needs_pools
    def test_dask_with_processes(self) -> None:
        self.try_dask(processes=True)

    @needs("mpi4py")
    def test_mpi(self) -> None:
        if not shutil.which("mpiexec"):
            self.skipTest("mpiexec is not installed")
        script = PYTHON / "tests" / "with_mpi.py"
        command = [
            "mpiexec", "--allow-run-as-root", "--oversubscribe", "-n", "3", sys.executable, "-m", "mpi4py.futures"
        ]
        process = subprocess.run(
            [*command, str(script)], stdout=subprocess.PIPE, stderr=subprocess.STDOUT, text=True, timeout=LIMIT
        )
        self.assertEqual(process.returncode, 0, process.stdout)
        # MPI may add messages of its own, for example about /dev/shm.
        self.assertRegex(process.stdout, r"(?m)^OK$")


class Nested(unittest.TestCase):
    def test_a_run_inside_a_call_uses_its_cache(self) -> None:
        def both(key: int) -> list[Table[Point]]:
            return trlab.run_all([replace(SHAPE, key=key), replace(SHAPE, key=key + 1)], Sweep.sweep)

        with tempfile.TemporaryDirectory() as folder:
            program = logging_program(folder)
            with mock.patch.dict("os.environ", TRLAB=str(program)):
                for _ in range(2):
                    results = dict(trlab.results([0, 10], call=both, cache=f"{folder}/cache"))
            self.assertEqual(calls(folder, "sweep"), 4)
        self.assertEqual(results, {place: both(10 * place) for place in range(2)})


if __name__ == "__main__":
    unittest.main()
