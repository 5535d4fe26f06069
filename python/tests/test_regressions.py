"""Numbers that version 0.5.6 got wrong without an error, one test for each.

The calls use the names of either version, so that you can also run the tests with the older package. There each of them
fails:

    TRLAB=$(OLD/trlab --where) PYTHONPATH=OLD/python python3 python/tests/test_regressions.py

OLD is a checkout of version 0.5.6. Results are right if they have the right value, or if there is an error of the
package."""
import contextlib
import io
import os
import shutil
import signal
import statistics
import subprocess
import sys
import tempfile
import unittest
import warnings
from collections.abc import Callable, Iterable, Sequence
from dataclasses import replace
from pathlib import Path
from typing import Any, NamedTuple, Optional

import trlab
from tests.waiting import LIMIT, first_of, holds
from trlab import Grid, Job, Nasch, Own, Rickert, Sweep

try:
    import matplotlib
    import numpy
    import pandas  # noqa: F401 (frames are of pandas)
except ModuleNotFoundError as missing:
    raise unittest.SkipTest(f"{missing.name} is not installed") from None

matplotlib.use("Agg")
IS_NEW = hasattr(trlab, "TrlabError")
if IS_NEW:
    ERRORS: tuple[type[Exception], ...] = (trlab.TrlabError,)
    random_cells, write_inputs = trlab.random_cells, trlab.write_inputs
else:
    ERRORS = (ValueError, TypeError, trlab.Refused, trlab.Failed)
    random_cells, write_inputs = trlab.random, trlab.write_texts
SEM = "sem" if IS_NEW else "error"
PACKAGE = Path(trlab.__file__).parents[1]
FAILED_WRITE = 4


class Drawn(NamedTuple):
    """The exit status and the output of a script that draws a figure."""

    status: int
    figure: str


# Frames, snapshots and results have other types in the older package.
def means(frame: Any, axis: str) -> Any:
    return trlab.means(frame, axis) if IS_NEW else frame.means(axis)


def column(frame: Any, name: str) -> Any:
    """The values of a column, or None if the frame has no such column."""
    if not IS_NEW:
        return [getattr(row, name) for row in frame] if name in frame.columns else None
    columns = frame.reset_index()
    return list(columns[name]) if name in columns else None


def speeds(snapshots: Any) -> Any:
    return snapshots.speeds() if IS_NEW else snapshots.to_numpy()


def is_error(call: Callable[..., object], *arguments: object, **named: object) -> bool:
    """Whether a call ends with an error of the package."""
    try:
        call(*arguments, **named)
    except ERRORS:
        return True
    return False


def job(density: float = 0.2, seed: int = 0, key: int = 0, **changes: Any) -> Job:
    """A job of 40 steps, with changes. A grid of jobs may have `seed` as a parameter, which changes only the key."""
    parameters: dict[str, Any] = {
        "limit": 5, "length": 50, "density": density, "rule": Nasch(0.25), "start": random_cells(key),
        "steps": 40, "key": key,
    }
    return Job(**{**parameters, **changes})


def windows(every: int, first: int = 0) -> Callable[[Job], Any]:
    """The measurement of a job in windows of this number of steps."""
    return lambda job: job.series(every=every, first=first)


def frame(call: Callable[[Job], Any] = windows(40), make: Callable[..., Job] = job, seed: Iterable[int] = range(4)) -> Any:
    """The results of jobs that differ in their seed."""
    return Grid(make, seed=seed).run(call=call)


def python(script: str, *arguments: str, before: Sequence[str] = (), **environment: str) -> str:
    """The output of a script that uses the package under test."""
    command = [*before, sys.executable, "-c", script, *arguments]
    environment_of_script = {**os.environ, "PYTHONPATH": str(PACKAGE), "TRLAB": trlab.find_program(), **environment}
    return subprocess.run(command, env=environment_of_script, cwd="/", capture_output=True, text=True).stdout


def drawn(script: str, text: str) -> Drawn:
    """The result of a script of docs/ for this text."""
    command = ["timeout", str(LIMIT), "awk", "-f", str(PACKAGE.parent / "docs" / script)]
    process = subprocess.run(command, input=text, capture_output=True, text=True)
    return Drawn(process.returncode, process.stdout)


class Frames(unittest.TestCase):
    def test_means_of_means(self) -> None:
        of_windows = frame(windows(10))
        if is_error(lambda: means(means(of_windows, "step"), "seed")):
            return
        result = means(means(of_windows, "step"), "seed")
        flows = [statistics.fmean(row.flow for row in of_windows if row.seed == seed) for seed in range(4)]
        self.assertAlmostEqual(column(result, f"flow_{SEM}")[0], statistics.stdev(flows) / 2)
        self.assertEqual(column(result, "count"), [4])

    def test_the_number_of_runs_is_not_a_mean_of_counts(self) -> None:
        result = means(frame(lambda job: {"count": 7}), "seed")
        self.assertEqual(column(result, "n" if IS_NEW else "count"), [4])

    def test_an_error_is_not_replaced_by_a_column(self) -> None:
        measured = frame(lambda job: {"x": job.key % 10, f"x_{SEM}": 0.001})
        self.assertTrue(is_error(means, measured, "seed") or column(means(measured, "seed"), f"x_{SEM}") != [0.001])

    def test_a_parameter_does_not_replace_a_result(self) -> None:
        def run() -> Any:
            return Grid(job, density=[0.1, 0.2], seed=[0]).run(call=lambda job: {"density": 0.9999})

        self.assertTrue(is_error(run) or column(run(), "density") == [0.9999, 0.9999])

    def test_requested_densities_of_one_car(self) -> None:
        def run() -> Any:
            return Grid(job, density=[0.011, 0.02, 0.029], seed=[0]).run(call=windows(40))

        self.assertTrue(is_error(run) or column(run(), "density") == 3 * [0.02])

    def test_numbers_of_numpy(self) -> None:
        measured = frame(lambda job: {"x": numpy.int64(job.count())})
        self.assertEqual(column(means(measured, "seed"), "x"), [10])

    def test_one_missing_value_does_not_remove_a_column(self) -> None:
        measured = frame(lambda job: {"x": 1.0 if job.key % 3 else None, "y": 1.0}, seed=range(9))
        self.assertTrue(is_error(means, measured, "seed") or column(means(measured, "seed"), "x") is not None)

    def test_a_choice_without_rows_does_not_vanish(self) -> None:
        def run() -> Any:
            return frame(lambda job: job.series(every=10)[:0 if job.key % 2 else 4], seed=range(9))

        self.assertTrue(is_error(run) or len(set(column(run(), "seed"))) == 9)

    def test_a_forgotten_key(self) -> None:
        def run() -> Any:
            return frame(make=lambda seed, key: job(start=random_cells(1)), seed=range(5))

        self.assertTrue(is_error(run) or is_error(means, run(), "seed"))

    def test_windows_of_one_run_are_not_independent(self) -> None:
        def long(seed: int, key: int) -> Job:
            return job(key=key, length=100, density=0.12, steps=9000)

        of_windows = frame(windows(5, first=1000), make=long, seed=range(12))
        if is_error(means, of_windows, "step"):
            return
        runs = means(of_windows, "step")
        spread = statistics.stdev(column(runs, "flow"))
        self.assertGreater(statistics.fmean(column(runs, f"flow_{SEM}")), 0.75 * spread)

    def test_a_row_and_its_fields_have_one_flow(self) -> None:
        def run() -> Any:
            return frame(lambda job: job.series(every=40)[0]._asdict())

        self.assertTrue(is_error(run) or max(column(run(), "flow")) < 1)


class Values(unittest.TestCase):
    def test_arithmetic_with_speeds(self) -> None:
        snapshots = Job(limit=20, length=200, cars=2, rule=Nasch(0), steps=50).run()
        self.assertEqual(numpy.nanmax(speeds(snapshots).reshape(-1) * speeds(snapshots).reshape(-1)), 400)

    def test_a_mean_of_speeds_has_no_empty_cells(self) -> None:
        array = speeds(Job(limit=5, length=50, cars=5, rule=Nasch(0), steps=50).run())
        self.assertFalse(array.mean() < 0)

    def test_flow_has_one_unit(self) -> None:
        table = job().series(every=40)
        flows = [table.to_pandas().flow[0], table[0].flow]
        with contextlib.suppress(*ERRORS, AttributeError):
            flows.append(table[0].passing)
        self.assertEqual(len(set(flows)), 1)

    def test_headways_are_not_gaps(self) -> None:
        cars = job(density=0.1, length=100, steps=20).run().trajectories()
        if not is_error(lambda: cars.headways()):
            self.assertAlmostEqual(numpy.mean(cars.headways()), 10)

    def test_an_occupancy_is_not_a_road(self) -> None:
        def run() -> Any:
            return Job(limit=5, start=numpy.array([0, 1, 0, 0]), rule=Nasch(0), steps=1).road()

        self.assertTrue(is_error(run) or sum(cell is not None for lane in run() for cell in lane) == 1)

    def test_snapshots_that_do_not_make_a_film(self) -> None:
        taken = job(steps=99).run()

        def draw() -> object:
            both = taken[:50] + taken[90:]
            return trlab.plot_space_time(both) if IS_NEW else both.space_time()

        with contextlib.redirect_stderr(io.StringIO()):
            self.assertTrue(is_error(draw))

    def test_impossible_rows(self) -> None:
        heading = "cars,cells,steps,distance,stopped,changes,flow\n"
        for row in "0,0,0,0,0,0,0", "1,10,100,999,0,0,999000", "1,10,010,0,0,0,0":
            self.assertTrue(
                is_error(lambda: [row.density for row in trlab.Table.read(trlab.Point, f"{heading}{row}\n")]), row
            )


class Inputs(unittest.TestCase):
    def test_small_integers_of_numpy(self) -> None:
        script = (
            "import numpy as np, trlab\n"
            "job = lambda n: trlab.Job(limit=5, rule=trlab.Nasch(.1), steps=1, length=n, cars=60000)\n"
            "print([job(n).series()[0].cars for n in (np.int32(100000), 100000)])"
        )
        self.assertEqual(python(script, NPY_PROMOTION_STATE="weak"), "[60000, 60000]\n")

    def test_products_of_small_integers(self) -> None:
        warnings.simplefilter("ignore")
        steps: dict[str, Any] = {"warm": numpy.uint16(60000), "measure": numpy.uint16(10000)}
        sweep = Sweep(limit=5, rule=Nasch(0), length=10, cars=[5], start=random_cells(1), **steps)
        self.assertEqual([job.steps for job in sweep.jobs()], [70000])

    def test_a_boolean_is_not_a_number(self) -> None:
        self.assertTrue(is_error(lambda: Job(limit=True, rule=Nasch(0), steps=2, length=9, cars=1)))
        self.assertTrue(is_error(lambda: Job(limit=5, rule=Nasch(0), steps=False, length=9, cars=1)))

    def test_a_wrong_option(self) -> None:
        for options in {"every": -1}, {"workers": 17}:
            with self.assertRaises(ValueError):
                job().run(**options)

    def test_two_lanes_that_do_not_start_even(self) -> None:
        with warnings.catch_warnings(record=True) as caught:
            warnings.simplefilter("always")
            with contextlib.redirect_stderr(io.StringIO()):
                Job(limit=5, length=1000, lanes=2, cars=300, rule=Rickert(0.25, 1), steps=10).text()
        self.assertEqual(len(caught), 1)

    def test_a_draw_is_explained(self) -> None:
        rule = Own("get r0, speed\nget r1, gap\nmin r0, r0, r1\ndraw r4, 0, 1\ngo r0\n")
        self.assertIn("p = 0.00000000046", trlab.explain(job(rule=rule)))


class Runs(unittest.TestCase):
    def setUp(self) -> None:
        place = tempfile.TemporaryDirectory()
        self.addCleanup(place.cleanup)
        self.place = Path(place.name)

    def program(self, script: str) -> str:
        """A program that replaces trlab, which is `$real`."""
        path = self.place / "program"
        path.write_text(f'#!/bin/sh\nreal="{trlab.find_program()}"\n{script}\n')
        path.chmod(0o755)
        return str(path)

    def test_a_cut_output_is_not_a_result(self) -> None:
        """For a program whose exit status is lost, because a parent process ignores SIGCHLD, or is 0."""
        script = "import trlab\nprint(len(trlab.Job(limit=5, length=9, cars=1, rule=trlab.Nasch(0), steps=9).series()))"
        cut = self.program('[ "$1" = series ] || exec "$real" "$@"\n"$real" "$@" | head -n 5\nkill -9 $$')
        ways_to_start: list[list[str]] = [[], ["env", "--ignore-signal=CHLD"]]
        for before in ways_to_start:
            self.assertEqual(python(script, before=before, TRLAB=cut), "")
        cut = self.program('[ "$1" = series ] || exec "$real" "$@"\n"$real" "$@" | head -n 5')
        self.assertEqual(python(script, TRLAB=cut), "")

    def test_a_folder_with_a_line_feed(self) -> None:
        sweep = Sweep(limit=5, length=10, cars=[1], rule=Nasch(0), warm=0, measure=1)
        folder = self.place / "x\ntouch INJECTED\n#"
        if not is_error(write_inputs, folder, {"a": sweep}):
            subprocess.run(["sh", str(folder / "array.sh")], cwd=self.place, capture_output=True)
        self.assertFalse((self.place / "INJECTED").exists())

    def test_results_of_another_program(self) -> None:
        sweep = Sweep(limit=5, length=10, cars=[1], rule=Nasch(0), warm=0, measure=1)
        script = write_inputs(self.place / "study", {"a": sweep})
        subprocess.run(["sh", str(script)], check=True, capture_output=True)
        other = self.program('[ "$1" != --version ] || exec echo trlab 9.9.9\nexec "$real" "$@"')
        self.assertTrue(is_error(write_inputs, self.place / "study", {"a": sweep}, program=other))

    def test_a_full_disk_is_named(self) -> None:
        sweep = Sweep(limit=5, length=10, cars=[1], rule=Nasch(0), warm=0, measure=1)
        full = self.program('[ "$1" = sweep ] || exec "$real" "$@"\n"$real" "$@" > /dev/full')
        script = write_inputs(self.place / "study", {"a": sweep}, program=full)
        message = subprocess.run(["sh", str(script)], capture_output=True, text=True).stderr
        self.assertRegex(message, "status 4: .*[a-z]")

    def test_a_study_that_is_terminated_leaves_no_program(self) -> None:
        script = (
            "import sys, trlab\nprint('ready', flush=True)\n"
            "rule = trlab.Rickert(0.25, 1)\n"
            "trlab.Sweep(limit=5, length=100000, lanes=2, cars=[99999], rule=rule, warm=0, measure=500000).sweep()"
        )
        mark = f"mark-{os.getpid()}-{id(self)}"
        program = self.program(
            f'[ "$1" = sweep ] || exec "$real" "$@"\necho $$ > "{self.place}/{mark}"\nexec "$real" "$@"'
        )
        place = {**os.environ, "PYTHONPATH": str(PACKAGE), "TRLAB": program}
        study = subprocess.Popen([sys.executable, "-c", script], env=place, stdout=subprocess.PIPE, text=True)
        assert study.stdout is not None
        self.addCleanup(study.stdout.close)

        def number_of_program() -> Optional[str]:
            return (self.place / mark).read_text().strip() or None if (self.place / mark).exists() else None

        number = first_of(number_of_program)
        study.send_signal(signal.SIGTERM)
        study.wait()
        try:
            self.assertTrue(holds(lambda: not Path(f"/proc/{number}").exists()))
        finally:
            with contextlib.suppress(ProcessLookupError):
                os.kill(int(number), signal.SIGKILL)

    def test_a_locale_without_utf_8(self) -> None:
        script = (
            "import trlab\ntry:\n    trlab.check('motion\\ng\\u00e9t r0, speed\\n')\n"
            "except Exception as error:\n    print(type(error).__name__)"
        )
        output = python(script, LC_ALL="C", PYTHONUTF8="0", PYTHONCOERCECLOCALE="0")
        self.assertIn(output, ("Refused\n", "RejectedInputError\n"))

    def test_an_entry_of_the_cache_that_is_not_a_file(self) -> None:
        script = (
            "import sys, trlab\njob = trlab.Job(limit=5, length=9, cars=1, rule=trlab.Nasch(0), steps=9)\n"
            "print(len(dict(trlab.results({'a': job}, cache=sys.argv[1]))['a']))"
        )
        cache = self.place / "cache"
        self.assertEqual(python(script, str(cache)), "10\n")
        entry = next(file for file in cache.iterdir() if not file.name.startswith("."))
        entry.unlink()
        os.mkfifo(entry)
        self.assertEqual(python(script, str(cache), before=["timeout", str(LIMIT)]), "10\n")

    def test_a_cut_download(self) -> None:
        package = self.place / "package"
        shutil.copytree(PACKAGE / "trlab", package / "trlab", ignore=shutil.ignore_patterns("__pycache__"))
        programs = package / "trlab" / "programs"
        shutil.copytree(PACKAGE.parent / "release", programs)
        for program in programs.glob("*.gz"):
            program.write_bytes(program.read_bytes()[:1000])
        script = (
            "import os, trlab\nos.environ.pop('TRLAB')\n"
            "try:\n    trlab.find_program()\nexcept OSError as error:\n    print(error)"
        )
        self.assertIn("install trlab again", python(script, PYTHONPATH=str(package), XDG_CACHE_HOME=str(self.place)))

    def test_a_figure_of_a_run(self) -> None:
        """diagram.awk rejects a text that is not a table."""
        self.assertEqual(drawn("diagram.awk", job().run().text()), (1, ""))

    def test_a_figure_of_tables_that_end_early(self) -> None:
        """diagram.awk rejects a table that ends in a row, or before the other tables of its curve. A table that ends after
        a whole row is the table of a sweep with fewer points, so that nothing in it is wrong."""
        sweep = Sweep(limit=2, length=20, cars=[5, 10, 15], rule=Nasch(1 / 4), warm=10, measure=100)
        table = sweep.sweep().text()
        shorter = "".join(table.splitlines(True)[:-1])
        self.assertEqual(shorter, replace(sweep, cars=[5, 10]).sweep().text())
        self.assertEqual(drawn("diagram.awk", table + table).status, 0)
        for tables in table[:-3], table + shorter, shorter + table, table + table.splitlines(True)[0]:
            self.assertEqual(drawn("diagram.awk", tables), (1, ""))

    def test_a_figure_of_a_run_that_ends_early(self) -> None:
        """spacetime.awk rejects an output that ends within a snapshot."""
        for road in ["0.0......"], ["0.0......", ".0......."]:
            snapshots = Job(limit=2, start=road, rule=Nasch(1 / 4), steps=10).run().text()
            self.assertEqual(drawn("spacetime.awk", snapshots).status, 0)
            before, step, lanes = snapshots.rpartition("step 10\n")
            for end in "st", step, step + lanes[:5], step + lanes + "0":
                self.assertEqual(drawn("spacetime.awk", before + end), (1, ""))
        self.assertEqual(drawn("spacetime.awk", before + step + lanes.splitlines(True)[0]), (1, ""))

    def test_a_repeated_sweep_that_ends_early(self) -> None:
        """repeat.sh prints no table if one of its sweeps fails."""
        program = self.place / "trlab"
        program.write_text(f"#!/bin/sh\ncat >> read\necho cars\ntest $(grep -c key read) != 3 || exit {FAILED_WRITE}\n")
        program.chmod(0o755)
        words = ["sh", str(PACKAGE.parent / "docs/repeat.sh")]
        repeated = subprocess.run(words, input="sweep 1\n", cwd=self.place, capture_output=True, text=True)
        self.assertEqual((repeated.returncode, repeated.stdout), (FAILED_WRITE, ""))


if __name__ == "__main__":
    unittest.main()
