"""The studies: their scripts make their inputs, and their tables and pages are the results of these inputs."""
import contextlib
import importlib
import importlib.util
import io
import itertools
import os
import re
import subprocess
import sys
import tempfile
import unittest
from collections.abc import Callable, Iterable
from concurrent.futures import ThreadPoolExecutor
from dataclasses import replace
from functools import lru_cache
from pathlib import Path
from shutil import copytree, ignore_patterns, which
from typing import TYPE_CHECKING, Any, NamedTuple, Union
from unittest import mock
from xml.etree import ElementTree

from tests.processes import calls, logging_program
from trlab import Job, Nasch, Point, Sweep, Table, random_cells

TOP = Path(__file__).resolve().parents[2]
STUDIES = TOP / "studies"
Input = Union[Job, Sweep]
NAMES = "1992", "1996", "1998", "exact", "triangle"
# The short scripts, which take seconds or minutes.
QUICK = ["detectors", "hysteresis", "own_rule", "study_file", "trajectories"]
SLOW = ["diagram", "ring_size", "two_lanes"]
TAKES_LONG = f"some 6 minutes, only with TRLAB_SLOW_STUDIES=1: {', '.join(SLOW)}"
PRINTED = re.compile(r"```sh\npython3 studies/paper/(\w+)\.py\n```\n\n```text\n(.*?)```", re.S)
HEADING = "text,cars,cells,steps,distance,stopped,changes,flow"
MISSING = [package for package in ("numpy", "pandas", "matplotlib") if not importlib.util.find_spec(package)]
sys.path.append(str(TOP))
if TYPE_CHECKING or not MISSING:
    from matplotlib import pyplot

    from studies import random_starts, study as shared


def script(name: str) -> Any:
    """The script of a study, as a module."""
    return importlib.import_module(f"studies.{name}.reproduce")


def inputs(name: str) -> dict[str, Input]:
    """The inputs of a study that have files of their own, by file name."""
    module = script(name)
    if name == "exact":
        return dict(module.inputs(False))
    if name == "1998":
        jobs = {**module.branches(False), **module.lives(False)}
        return {f"{input_name}.job": job for input_name, job in jobs.items() if job.key == 1}
    sweeps = {**module.inputs(False), **(module.dots() if name == "1992" else {})}
    return {f"{input_name}.sweep": sweep for input_name, sweep in sweeps.items()}


def lines(table: Iterable[Iterable[object]]) -> list[str]:
    """The rows of a result, as in a file."""
    return [",".join(map(str, row)) for row in table]


class Drawn(NamedTuple):
    """The figures, means and pages that a study makes from its tables."""

    figures: dict[str, str]
    means: dict[str, str]
    printed: list[str]


def run_python(folder: Union[str, Path], *arguments: str) -> Drawn:
    """The output of Python in a folder with a copy of the studies without figures and means, and of the examples that
    they read, and the figures and means that it makes there."""
    for name in "studies", "examples":
        copytree(TOP / name, Path(folder) / name, ignore=ignore_patterns("*.svg", "*means.csv", "cache"))
    environment = {**os.environ, "PYTHONPATH": str(TOP / "python"), "PYTHONIOENCODING": "utf-8", "MPLBACKEND": "agg"}
    command = [sys.executable, "-B", *arguments]
    process = subprocess.run(
        command, cwd=folder, env=environment, check=True, stdout=subprocess.PIPE, encoding="utf-8"
    )
    figures, means = contents_below(Path(folder), "*.svg"), contents_below(Path(folder), "*means.csv")
    return Drawn(figures, means, process.stdout.splitlines())


def contents_below(folder: Path, names: str) -> dict[str, str]:
    """The contents of the files with such names in a folder and the folders below it, by their names."""
    return {file.name: file.read_text(encoding="utf-8") for file in folder.rglob(names)}


@lru_cache(maxsize=None)
def drawn_by_study(name: str) -> Drawn:
    """The figures, means and rows of a study, from its tables."""
    with tempfile.TemporaryDirectory() as folder:
        return run_python(folder, "-m", f"studies.{name}.reproduce", "--draw")


def is_rounded_alike(first: str, second: str) -> bool:
    """Whether two words are the same, or numbers that differ by one in the last digit: sums depend on the library."""
    if first == second:
        return True
    places = len(first.partition(".")[2])
    have_same_places = "." in first and places == len(second.partition(".")[2])
    return have_same_places and abs(float(first) - float(second)) < 1.5 * 10**-places


def words_of(figure: str) -> list[str]:
    """The texts of a figure that have letters: titles and legends, not the marks of its axes."""
    texts = (
        "".join(element.itertext()).strip()
        for element in ElementTree.fromstring(figure).iter("{http://www.w3.org/2000/svg}text")
    )
    return sorted(text for text in texts if any(letter.isalpha() for letter in text))


def printed_pages() -> dict[str, str]:
    """The output of each short script, as its page shows it."""
    return dict(PRINTED.findall((STUDIES / "paper" / "README.md").read_text(encoding="utf-8")))


def rows(file: Path) -> dict[str, list[str]]:
    """The lines of a table after its heading, by the names of their inputs."""
    lines_of_table = (line.split(",", 1) for line in file.read_text().splitlines()[1:])
    return {name: [row for _, row in group] for name, group in itertools.groupby(lines_of_table, lambda line: line[0])}


@unittest.skipIf(MISSING, f"{', '.join(MISSING)} not installed")
class Studies(unittest.TestCase):
    def test_inputs_are_those_of_the_scripts(self) -> None:
        for name in NAMES:
            with self.subTest(study=name):
                files = {file.name: file.read_text() for file in (STUDIES / name / "texts").iterdir()}
                self.assertEqual(files, {file: input.text() for file, input in inputs(name).items()})

    def test_figures_are_of_the_tables_and_scripts(self) -> None:
        # The drawing of a curve depends on the version of matplotlib, but its texts do not.
        for name in NAMES:
            figures = {file.name: file.read_text(encoding="utf-8") for file in (STUDIES / name).glob("*.svg")}
            self.assertEqual(set(figures), set(drawn_by_study(name).figures))
            for file, figure in figures.items():
                with self.subTest(study=name, figure=file):
                    self.assertIn(shared.digest_of_tables(STUDIES / name), figure)
                    self.assertGreater(len(words_of(figure)), 3)
                    self.assertEqual(words_of(figure), words_of(drawn_by_study(name).figures[file]))

    def test_means_are_of_the_tables(self) -> None:
        for name in NAMES:
            with self.subTest(study=name):
                self.assertEqual(contents_below(STUDIES / name, "*means.csv"), drawn_by_study(name).means)

    def test_pages_link_to_their_means(self) -> None:
        for name in NAMES:
            page = (STUDIES / name / "README.md").read_text(encoding="utf-8")
            for file in drawn_by_study(name).means:
                self.assertIn(f"]({file})", page)

    def test_pages_have_the_rows_that_their_scripts_print(self) -> None:
        for name in NAMES:
            page = (STUDIES / name / "README.md").read_text(encoding="utf-8").splitlines()
            rows_printed = [line for line in drawn_by_study(name).printed if line.startswith(("| ", "- "))]
            self.assertGreaterEqual(len(rows_printed), 8)
            for line in rows_printed:
                with self.subTest(study=name):
                    self.assertIn(line, page)

    def test_the_page_of_1992_has_the_maximum_of_the_full_table(self) -> None:
        module = script("1992")
        page = (STUDIES / "1992" / "README.md").read_text(encoding="utf-8")
        tables = {"full_table.csv": module.inputs(True), "full_random.csv": module.random_inputs(True)}
        for file, full_inputs in tables.items():
            frame = module.full_frame(STUDIES / "1992" / file, full_inputs)
            self.assertEqual(set(shared.means(frame, "density").n), {80})
            if file == "full_table.csv":
                self.assertIn(module.maximum("even, 1,600,000 steps", frame), page)

    def test_first_points_come_out_again(self) -> None:
        # A point does not depend on the points after it.
        for name in "1992", "1996", "triangle":
            table = rows(STUDIES / name / "table.csv")
            self.assertEqual(list(table), list(script(name).inputs(False)))
            for input_name, sweep in itertools.islice(script(name).inputs(False).items(), 2):
                first = replace(sweep, cars=sweep.counts()[:2], densities=None)
                with self.subTest(study=name, input=input_name):
                    self.assertEqual(lines(Sweep.sweep(first)), table[input_name][:2])

    def test_first_points_of_random_initial_states_come_out_again(self) -> None:
        for name in "1992", "1996", "triangle":
            module, table = script(name), rows(STUDIES / name / "random.csv")
            jobs = module.random_inputs(False)
            self.assertEqual(list(table), list(jobs))
            for input_name, job in itertools.islice(jobs.items(), 2):
                with self.subTest(study=name, input=input_name):
                    self.assertEqual(lines(random_starts.last_steps(module.MEASURE)(job)), table[input_name])

    def test_random_initial_states_are_those_of_a_sweep(self) -> None:
        sweep = Sweep(limit=5, length=30, rule=Nasch("1/4"), warm=10, measure=20, cars=[4, 4, 7], key=5)
        jobs = random_starts.from_random({"a_key5": sweep})
        self.assertEqual({random_starts.sweep_of(name) for name in jobs}, {"a_key5"})
        points = [point for job in jobs.values() for point in random_starts.last_steps(20)(job)]
        self.assertEqual(points, list(replace(sweep, start=random_cells(5)).sweep()))

    def test_a_table_of_other_inputs_is_rejected(self) -> None:
        module = script("1992")
        tables = shared.read_tables(STUDIES / "1992" / "table.csv", Point)
        denser = {name: replace(sweep, densities=[0.5] * 5) for name, sweep in module.inputs(False).items()}
        with self.assertRaisesRegex(ValueError, "0.02_key1"):
            shared.frame_of(denser, tables)

    def test_an_interrupted_study_continues(self) -> None:
        sweep = Sweep(limit=5, length=10, rule=Nasch(0), warm=0, measure=1, cars=[1])
        sweeps = {f"{cars}_cars": replace(sweep, cars=[cars]) for cars in (1, 2, 3)}

        def fails_for_three_cars(sweep: Sweep) -> Table[Point]:
            if sweep.cars == (3,):
                raise OSError("cut off")
            return sweep.sweep()

        def other_call(sweep: Sweep) -> Table[Point]:
            return sweep.sweep(runners=2)

        with tempfile.TemporaryDirectory() as folder, tempfile.TemporaryDirectory() as beside:
            with mock.patch.dict("os.environ", TRLAB=str(logging_program(beside))):
                study = shared.Study(Path(folder), is_full=False, is_drawn_only=False)
                with contextlib.redirect_stderr(io.StringIO()):
                    self.assertRaisesRegex(OSError, "cut off", study.frame, "table.csv", Point, sweeps, fails_for_three_cars)
                    # Sweeps run at the same time, so that the others may or may not be done by then.
                    done = len(list((Path(folder) / "outputs.parts").iterdir()))
                    new_calls_of: list[tuple[Callable[[Sweep], Table[Point]], int]] = [
                        (Sweep.sweep, 3 - done), (Sweep.sweep, 0), (other_call, 3)
                    ]
                    for call, new_calls in new_calls_of:
                        before = calls(beside, "sweep")
                        frame = study.frame("table.csv", Point, sweeps, call)
                        self.assertEqual(calls(beside, "sweep") - before, new_calls)
            self.assertEqual(list(frame.cars), [1, 2, 3])
            self.assertLessEqual(done, 2)
            self.assertEqual((Path(folder) / "table.csv").read_text().splitlines()[0], HEADING)
            study.save(pyplot.subplots()[1])
            self.assertEqual({file.name for file in Path(folder).iterdir()}, {"table.csv", "texts", "figure.svg"})

    def test_each_short_script_is_on_the_page(self) -> None:
        scripts = {file.stem for file in (STUDIES / "paper").glob("*.py")}
        self.assertEqual(set(printed_pages()), scripts)
        self.assertEqual(scripts, {*QUICK, *SLOW})

    def test_quick_scripts_print_their_page(self) -> None:
        self.try_scripts(QUICK)

    @unittest.skipUnless(os.environ.get("TRLAB_SLOW_STUDIES"), TAKES_LONG)
    def test_slow_scripts_print_their_page(self) -> None:
        self.try_scripts(SLOW)

    def try_scripts(self, names: Iterable[str]) -> None:
        """Each of these scripts prints the words on its page, except for the last digits of numbers."""
        pages = printed_pages()
        with tempfile.TemporaryDirectory() as folder, ThreadPoolExecutor() as pool:
            results = pool.map(lambda name: run_python(Path(folder) / name, f"studies/paper/{name}.py"), names)
            for name, drawn in zip(names, results):
                with self.subTest(script=name):
                    self.assertEqual(set(drawn.figures), {f"{name}.svg"})
                    printed_words, expected_words = "\n".join(drawn.printed).split(), pages[name].split()
                    self.assertEqual(len(printed_words), len(expected_words))
                    for printed, expected in zip(printed_words, expected_words):
                        self.assertTrue(is_rounded_alike(printed, expected), (printed, expected))

    def test_parts_are_not_in_git(self) -> None:
        if not (TOP / ".git").exists() or not which("git"):
            self.skipTest("this is not a checkout")
        for path in "studies/1992/outputs.parts", "studies/1992/full/outputs.parts":
            self.assertEqual(subprocess.run(["git", "check-ignore", "-q", path], cwd=TOP).returncode, 0)

    def test_a_branch_comes_out_again(self) -> None:
        module, table = script("1998"), rows(STUDIES / "1998" / "table.csv")
        jobs = module.branches(False)
        self.assertEqual(list(table), list(jobs))
        for name in "jam_0.03_key1", "moving_0.03_key2":
            self.assertEqual(lines(module.last_half(jobs[name])), table[name])
        lives = rows(STUDIES / "1998" / "lives.csv")
        for name, job in itertools.islice(module.lives(False).items(), 3):
            self.assertEqual([f"{job.length},{module.life(job)}"], lives[name])
