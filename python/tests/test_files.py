"""Inputs and tables as files: `array.sh` leaves only complete results, and `read_tables` names each incomplete one."""
import os
import shlex
import shutil
import signal
import subprocess
import tempfile
import unittest
from dataclasses import replace
from pathlib import Path
from typing import Any, NamedTuple, Optional, Union

from tests.processes import calls, child, kill, logging_program, marked
from tests.skips import needs
from tests.waiting import holds
from trlab import Grid, Job, Nasch, ParameterError, Point, ProgramNotFoundError, ResultFilesError, Rickert, Sweep
from trlab import Window, find_program, moving, random_cells, read_tables, write_inputs

SHAPE = Sweep(limit=5, length=100, rule=Nasch(0.25), warm=10, measure=20, cars=[10, 20])
SWEEPS = {f"key {key}": replace(SHAPE, key=key) for key in range(5)}
JOB = Job(limit=5, length=20, cars=4, rule=Nasch(0.25), steps=10)
LONG = replace(JOB, length=20000, cars=4000, steps=500000)
# A child process of Python, whose mark its own children have, becomes the shell that runs a script.
SHELL = "import os, sys; os.execvp('sh', ['sh', *sys.argv[1:]])"


class Task(NamedTuple):
    """How a task of an array ended: its exit status, and the text on standard error."""

    status: int
    errors: str


SUCCESS = Task(0, "")


class Folder(unittest.TestCase):
    def setUp(self) -> None:
        self.place = tempfile.mkdtemp(prefix="a blank ")
        self.addCleanup(shutil.rmtree, self.place)
        self.folder = Path(self.place) / "array"

    def task(self, script: Union[str, Path], number: Optional[int] = None) -> Task:
        """Runs a task of an array, or the whole array."""
        environment = {name: value for name, value in os.environ.items() if name != "SLURM_ARRAY_TASK_ID"}
        if number is not None:
            environment["SLURM_ARRAY_TASK_ID"] = str(number)
        process = subprocess.run(["sh", script], env=environment, stdout=subprocess.PIPE, stderr=subprocess.PIPE, text=True)
        self.assertEqual(process.stdout, "")
        return Task(process.returncode, process.stderr)

    def results(self) -> list[str]:
        return sorted(file.name for file in self.folder.glob("*.csv"))


class Arrays(Folder):
    def test_a_task_runs_one_input(self) -> None:
        script = write_inputs(self.folder, SWEEPS)
        self.assertEqual(self.task(script, 2), SUCCESS)
        self.assertEqual(self.results(), ["key 1.csv"])
        self.assertEqual(self.task(script, 6), SUCCESS)
        self.assertEqual(self.results(), ["key 1.csv"])
        self.assertEqual(self.task(script), SUCCESS)
        self.assertEqual(
            read_tables(self.folder, Point, SWEEPS), {name: sweep.sweep() for name, sweep in SWEEPS.items()}
        )
        self.assertEqual([file.name for file in self.folder.iterdir() if file.name.startswith(".")], [])

    def test_a_task_runs_several_inputs(self) -> None:
        script = write_inputs(self.folder, SWEEPS, per_task=2)
        self.assertIn("#SBATCH --array=1-3 ", script.read_text())
        self.assertEqual(self.task(script, 3), SUCCESS)
        self.assertEqual(self.results(), ["key 4.csv"])
        self.assertEqual(self.task(script, 1), SUCCESS)
        self.assertEqual(self.results(), ["key 0.csv", "key 1.csv", "key 4.csv"])

    def test_whole_results_are_skipped(self) -> None:
        script = write_inputs(self.folder, SWEEPS, program=str(logging_program(self.place)))
        self.task(script, 1)
        before = (self.folder / "key 0.csv").stat().st_ino
        for _ in range(2):
            self.assertEqual(self.task(script), SUCCESS)
        self.assertEqual(calls(self.place, "sweep"), 5)
        self.assertEqual((self.folder / "key 0.csv").stat().st_ino, before)

    def test_a_rejected_input_has_no_result(self) -> None:
        jobs = {"wrong": replace(JOB, rule=Rickert(0, 0)), "good": JOB}
        script = write_inputs(self.folder, jobs, ["series"], per_task=2)
        message = "wrong.job has no result, trlab ended with status 1: fault line 5 cause 4\n"
        self.assertEqual(self.task(script, 1), Task(1, message))
        self.assertEqual(self.results(), ["good.csv"])

    def test_an_output_that_is_cut_off_is_not_a_result(self) -> None:
        program = Path(self.place) / "cutting_trlab"
        ending = f'[ "$1" = --version ] || exit $(cat "{self.place}/status")'
        program.write_text(f'#!/bin/sh\n"{find_program()}" "$@" | head -c 60\n{ending}\n')
        program.chmod(0o755)
        script = write_inputs(self.folder, SWEEPS, program=str(program))
        reasons = {3: "trlab ended with status 3: memory ran out", 0: "trlab wrote 1 of 3 lines"}
        reasons[4] = "trlab ended with status 4: reading the input or writing the output failed"
        for status, why in reasons.items():
            (Path(self.place) / "status").write_text(str(status))
            with self.subTest(status=status):
                self.assertEqual(self.task(script, 1), Task(status or 1, f"key 0.sweep has no result, {why}\n"))
                self.assertEqual(self.results(), [])
                result = read_tables(self.folder, Point, {"key 0": SWEEPS["key 0"]}, errors="keep")["key 0"]
                self.assertIs(type(result), ResultFilesError)
                self.assertEqual(str(result), f"key 0.csv is missing: {why}")

    def test_a_killed_task_leaves_no_result(self) -> None:
        script = write_inputs(self.folder, {"long": LONG, "short": JOB}, ["series"], per_task=2)
        for number in signal.SIGTERM, signal.SIGKILL:
            with self.subTest(signal=number):
                shell = child(SHELL, str(script), SLURM_ARRAY_TASK_ID="1")
                self.assertTrue(holds(lambda: any(file.stat().st_size > 100000 for file in self.folder.glob(".long.new.*"))))
                if number == signal.SIGTERM:
                    shell.terminate()
                    self.assertEqual(shell.wait(), 143)
                    self.assertTrue(holds(lambda: not marked(shell.mark)))
                    self.assertEqual(list(self.folder.glob(".*")), [])
                kill(shell)
                self.assertEqual(self.results(), [])
        write_inputs(self.folder, {"long": replace(LONG, steps=10), "short": JOB}, ["series"])
        self.assertEqual(self.task(script), SUCCESS)
        self.assertEqual(self.results(), ["long.csv", "short.csv"])
        self.assertEqual(list(self.folder.glob(".*")), [])

    def test_gnu_parallel(self) -> None:
        if not shutil.which("parallel"):
            self.skipTest("GNU parallel is not installed")
        script = write_inputs(self.folder, SWEEPS, per_task=2)
        command = f"seq 3 | parallel SLURM_ARRAY_TASK_ID={{}} sh \"'{script}'\""
        self.assertEqual(os.system(command), 0)
        self.assertEqual(
            read_tables(self.folder, Point, SWEEPS), {name: sweep.sweep() for name, sweep in SWEEPS.items()}
        )

    def test_snapshots_have_another_ending(self) -> None:
        script = write_inputs(self.folder, {"a": JOB}, ["run"])
        self.assertEqual(self.task(script), SUCCESS)
        self.assertTrue((self.folder / "a.out").read_text().startswith("step 0\n"))

    def test_names_that_no_file_can_have(self) -> None:
        for name in "", "a/b", ".a", "a\nb":
            self.assertRaisesRegex(ValueError, "cannot be the name of a file", write_inputs, self.folder, {name: SHAPE})
        self.assertRaisesRegex(
            ValueError, "per_task must be between 1 and ", write_inputs, self.folder, SWEEPS, per_task=0
        )

    def test_a_result_of_another_input_is_not_kept(self) -> None:
        self.task(write_inputs(self.folder, SWEEPS), 1)
        write_inputs(self.folder, SWEEPS)
        changed = {**SWEEPS, "key 0": replace(SHAPE, measure=21)}
        self.assertRaisesRegex(ResultFilesError, "key 0.csv", write_inputs, self.folder, changed)
        self.assertRaisesRegex(
            ResultFilesError, "key 0.csv", write_inputs, self.folder, SWEEPS, ["sweep", "--runners", "2"]
        )
        write_inputs(self.folder, {**SWEEPS, "key 1": replace(SHAPE, measure=21)})


class Scripts(Folder):
    """The script with unusual folders, programs and numbers of tasks."""

    def test_folders_that_a_line_cannot_name(self) -> None:
        for name in "x\ntouch INJECTED\n#", "a\tb", "a\rb", "a\x1bb", "a\u2028b", "a\udc80b":
            self.assertRaisesRegex(
                ParameterError, "its path must be printable", write_inputs, Path(self.place) / name, SWEEPS
            )
        self.assertRaisesRegex(ParameterError, "its path must be printable", write_inputs, "", SWEEPS)

    def test_a_percent_sign_is_escaped_for_slurm(self) -> None:
        self.folder /= "100%j 'quoted' $HOME \"é"
        script = write_inputs(self.folder, SWEEPS)
        output = script.read_text("utf-8").splitlines()[1].partition("--output=")[2]
        self.assertEqual(shlex.split(output), [f"{self.folder}/slurm-%A_%a.out".replace("100%j", "100%%j")])
        self.assertEqual(self.task(script), SUCCESS)
        self.assertEqual(
            read_tables(self.folder, Point, SWEEPS), {name: sweep.sweep() for name, sweep in SWEEPS.items()}
        )

    def test_the_number_of_tasks_is_named(self) -> None:
        for per_task, tasks in (1, 5), (2, 3), (5, 1), (9, 1):
            self.assertIn(
                f"#     seq {tasks} | parallel ", write_inputs(self.folder, SWEEPS, per_task=per_task).read_text()
            )

    def other_program(self, version: str = "trlab 9.9.9") -> str:
        path = Path(self.place) / "other"
        path.write_text(f'#!/bin/sh\n[ "$1" != --version ] || exec echo {version}\nexec "{find_program()}" "$@"\n')
        path.chmod(0o755)
        return str(path)

    def test_results_of_another_program_are_not_kept(self) -> None:
        write_inputs(self.folder, SWEEPS, program=self.other_program())
        script = write_inputs(self.folder, SWEEPS)
        self.task(script, 1)
        with self.assertRaisesRegex(ResultFilesError, "another program"):
            write_inputs(self.folder, SWEEPS, program=self.other_program())
        self.assertEqual(self.task(script), SUCCESS)
        (self.folder / "array.program").unlink()
        self.assertRaisesRegex(ResultFilesError, "unknown program", write_inputs, self.folder, SWEEPS)
        self.assertRaisesRegex(
            ProgramNotFoundError, "is not trlab", write_inputs, self.folder, SWEEPS, program="/bin/false"
        )

    def test_a_task_that_finds_another_program_writes_nothing(self) -> None:
        program = self.other_program()
        script = write_inputs(self.folder, SWEEPS, program=program)
        self.other_program("trlab 9.9.8")
        task = self.task(script)
        self.assertEqual(task.status, 1)
        self.assertEqual(self.results(), [])
        self.assertRegex(task.errors, "^.*/other is trlab 9.9.8 [0-9a-f]{64}, and this folder is for trlab 9.9.9 ")

    def test_a_program_of_other_machines_is_remembered_by_the_first_task(self) -> None:
        program = Path(self.place) / "other"
        script = write_inputs(self.folder, SWEEPS, program=str(program))
        self.assertEqual(self.task(script).status, 1)
        self.assertEqual(self.results(), [])
        self.other_program()
        self.assertEqual(self.task(script, 1), SUCCESS)
        self.other_program("trlab 9.9.8")
        self.assertEqual(self.task(script, 2).status, 1)
        self.assertEqual(self.results(), ["key 0.csv"])

    def test_inputs_and_words_that_do_not_fit(self) -> None:
        for arguments in (
            ["sweep"], ["check"], ["series; touch INJECTED"], [], "series", ["series", "$(id)"],
            ["series", "--every", "3"],
            ["series", "--from", "10"], ["run", "--from", "11"], ["series", "--every", "x"],
        ):
            self.assertRaisesRegex(
                ParameterError, "words that begin|words must be a list|are not whole windows|needs a whole number",
                write_inputs, self.folder, {"a": JOB}, arguments,
            )
        for arguments in ["series"], ["run"]:
            self.assertRaisesRegex(
                ParameterError, "a sweep needs words that begin with .sweep.", write_inputs, self.folder, SWEEPS, arguments
            )
        self.assertRaisesRegex(
            ParameterError, "an input is a Job or a Sweep", write_inputs, self.folder, {"a": "sweep 1"}
        )
        self.assertRaisesRegex(
            ParameterError, "cannot be the name of a file", write_inputs, self.folder, {"a~1of2": SHAPE}
        )


class Parts(Folder):
    """Sweeps that need several files: from other initial states than even, and with many points."""

    SWEEPS = {
        "random": replace(SHAPE, start=random_cells(1), cars=[10, 20, 30]),
        "one": replace(SHAPE, start=moving, cars=[10]),
        "even": SHAPE,
        "many": replace(SHAPE, warm=0, measure=1, cars=[number % 50 for number in range(450)]),
    }

    def setUp(self) -> None:
        super().setUp()
        self.script = write_inputs(self.folder, self.SWEEPS, per_task=3)
        self.assertEqual(self.task(self.script), SUCCESS)

    def test_the_tables_are_those_of_the_sweeps(self) -> None:
        expected = {name: sweep.sweep() for name, sweep in self.SWEEPS.items()}
        self.assertEqual(read_tables(self.folder, Point, self.SWEEPS), expected)
        self.assertEqual(read_tables(self.folder, Point), expected)
        files = sorted(file.name for file in self.folder.iterdir() if file.suffix in (".job", ".sweep"))
        many = [f"many~{number}of3.sweep" for number in (1, 2, 3)]
        random = [f"random~{number}of3.job" for number in (1, 2, 3)]
        self.assertEqual(files, ["even.sweep", *many, "one.job", *random])
        self.assertIn("of the 8 inputs", self.script.read_text())

    def test_a_part_that_is_missing_is_named(self) -> None:
        (self.folder / "random~2of3.csv").unlink()
        for inputs in self.SWEEPS, None:
            tables = read_tables(self.folder, Point, inputs, errors="keep")
            self.assertEqual(sorted(tables), sorted(self.SWEEPS))
            self.assertEqual(str(tables["random"]), "random~2of3.csv is missing")
            self.assertEqual(tables["many"], self.SWEEPS["many"].sweep())

    def test_other_steps_are_another_input(self) -> None:
        """The jobs of both sweeps are the same, and their words differ."""
        other = {"random": replace(self.SWEEPS["random"], warm=11, measure=19)}
        self.assertRaisesRegex(ResultFilesError, "another input", write_inputs, self.folder, other)
        self.assertRaisesRegex(ResultFilesError, "other windows", read_tables, self.folder, Point, other)

    @needs("pandas")
    def test_a_frame_while_some_tasks_are_late(self) -> None:
        from pandas.testing import assert_frame_equal

        grid = Grid(lambda seed, key: replace(SHAPE, start=random_cells(key), key=key), seed=range(3))
        self.folder /= "grid"
        script = write_inputs(self.folder, grid.named_inputs())
        for number in range(1, 6):
            self.task(script, number)
        frame = grid.frame(read_tables(self.folder, Point, grid.named_inputs(), errors="keep"))
        self.assertEqual(frame["error"].isna().sum(), 4)
        self.assertRegex(frame["error"].dropna().iloc[0], "seed_2~2of2.csv is missing")
        self.task(script)
        assert_frame_equal(
            grid.frame(read_tables(self.folder, Point, grid.named_inputs())), grid.run(), check_exact=True
        )

    def test_a_point_that_is_too_long_for_a_file(self) -> None:
        self.assertRaisesRegex(
            ParameterError, "500000", write_inputs, self.folder, {"long": replace(SHAPE, warm=500000)}
        )


class Tables(Folder):
    def setUp(self) -> None:
        super().setUp()
        self.task(write_inputs(self.folder, SWEEPS))
        self.expected = {name: sweep.sweep() for name, sweep in SWEEPS.items()}

    def fault(self, texts: Any = SWEEPS, kind: Any = Point) -> list[str]:
        """The lines of the exception after the first one."""
        with self.assertRaises(ValueError) as caught:
            read_tables(self.folder, kind, texts)
        first, *others = str(caught.exception).split("\n")
        self.assertEqual(
            first, f"{len(others)} of {len(texts or self.expected)} tables in {self.folder} cannot be used:"
        )
        return [line.strip() for line in others]

    def test_all_faults_in_one_error(self) -> None:
        complete = (self.folder / "key 0.csv").read_bytes()
        without_last_row = b"\n".join(complete.split(b"\n")[:-2]) + b"\n"
        (self.folder / "key 0.csv").unlink()
        for number, content in {1: b"", 2: complete[:-1], 3: without_last_row, 4: b"a,b\n1,2\n"}.items():
            (self.folder / f"key {number}.csv").write_bytes(content)
        self.assertEqual(
            self.fault()[:4],
            [
                "key 0.csv is missing",
                "key 1.csv is empty",
                "key 2.csv is cut off in the middle of a line",
                "key 3.csv is short: it has 1 of 2 points",
            ],
        )
        self.assertRegex(self.fault()[4], "^key 4.csv is damaged: .*a,b")

    def test_every_cut_of_a_table_is_found(self) -> None:
        file = self.folder / "key 0.csv"
        content = file.read_bytes()
        for length in range(len(content)):
            file.write_bytes(content[:length])
            with self.subTest(length=length):
                self.assertEqual(len(self.fault()), 1)

    def test_without_inputs(self) -> None:
        self.assertEqual(read_tables(self.folder, Point), self.expected)
        (self.folder / "key 3.csv").write_text("")
        self.assertEqual(self.fault(None), ["key 3.csv is empty"])

    def test_the_order_of_the_inputs(self) -> None:
        turned = dict(reversed(SWEEPS.items()))
        self.assertEqual(list(read_tables(self.folder, Point, turned)), list(turned))
        self.assertEqual(list(read_tables(self.folder, Point, {"key 3": SWEEPS["key 3"]})), ["key 3"])

    def test_a_table_of_another_input(self) -> None:
        others = {"key 0": replace(SHAPE, key=99), "key 1": SWEEPS["key 1"]}
        self.assertEqual(self.fault(others), ["key 0.csv is the result of another input, key 0.sweep"])
        for file in self.folder.glob("*.sweep"):
            file.unlink()
        for sweep in replace(SHAPE, cars=[10]), replace(SHAPE, cars=[10, 30]), replace(SHAPE, measure=21):
            self.assertEqual(self.fault({"key 0": sweep}), ["key 0.csv has other points than its sweep"])

    def test_the_other_tables_can_be_used(self) -> None:
        wrong, damaged, good = replace(JOB, rule=Rickert(0, 0)), replace(JOB, key=1), replace(JOB, key=2)
        jobs = {"late": JOB, "wrong": wrong, "damaged": damaged, "good": good}
        folder = self.folder / "jobs"
        self.task(write_inputs(folder, jobs, ["series"]))
        (folder / "late.csv").unlink()
        with open(folder / "damaged.csv", "a") as file:
            file.write("1,2\n")
        tables = read_tables(folder, Window, jobs, errors="keep")
        self.assertEqual(list(tables), list(jobs))
        self.assertEqual(tables["good"], jobs["good"].series())
        messages = {name: str(fault) for name, fault in tables.items() if isinstance(fault, ResultFilesError)}
        self.assertEqual(messages["late"], "late.csv is missing")
        self.assertEqual(messages["wrong"], "wrong.csv is missing: trlab ended with status 1: fault line 5 cause 4")
        self.assertRegex(messages["damaged"], "^damaged.csv is damaged: ")
        with self.assertRaises(ResultFilesError) as caught:
            read_tables(folder, Window, jobs)
        for line in messages.values():
            self.assertIn(f"\n  {line}", str(caught.exception))
        self.assertRaisesRegex(ParameterError, "errors must be", read_tables, folder, Window, jobs, errors="ignore")
        self.assertRaisesRegex(ParameterError, "sweeps have tables of kind Point", read_tables, folder, Point, jobs)

    def test_impossible_rows_are_named(self) -> None:
        heading, first, second = (self.folder / "key 0.csv").read_text().splitlines()
        good = first.split(",")
        changes = {0: "101", 1: "0", 2: "0", 3: "99999", 4: "201", 6: "1000001"}
        rows = [",".join([*good[:column], change, *good[column + 1:]]) for column, change in changes.items()]
        for row in [*rows, "0" + first, ",".join([*good[:-1], "9" * 5000])]:
            (self.folder / "key 0.csv").write_text(f"{heading}\n{row}\n{second}\n")
            with self.subTest(row=row[:60]):
                self.assertRegex(self.fault(None)[0], "^key 0.csv is damaged: ")
        (self.folder / "key 0.csv").write_bytes(f"{heading}\r{first}\r{second}\n".encode())
        self.assertRegex(self.fault(None)[0], "^key 0.csv is damaged: ")

    def test_a_table_of_another_road(self) -> None:
        folder = self.folder / "jobs"
        self.task(write_inputs(folder, {"a": replace(JOB, cars=5)}, ["series"]))
        (folder / "a.job").write_text(JOB.text())
        self.assertRaisesRegex(
            ResultFilesError, "a.csv has another road than its job", read_tables, folder, Window, {"a": JOB}
        )

    def test_windows_of_other_words(self) -> None:
        folder = self.folder / "jobs"
        self.task(write_inputs(folder, {"a": JOB}, ["series", "--every", "5"]))
        lines = (folder / "a.csv").read_text().splitlines(True)
        (folder / "a.csv").write_text(lines[0] + lines[2])
        with self.assertRaisesRegex(ResultFilesError, "other windows than `trlab series --every 5`"):
            read_tables(folder, Window, {"a": JOB})

    def test_every_cut_of_a_series_is_found(self) -> None:
        for every, first in (1, 0), (5, 0), (3, 1), (4, 2), (10, 0):
            arguments = ["series", "--every", str(every), "--from", str(first)]
            folder = self.folder / f"{every} {first}"
            self.task(write_inputs(folder, {"a": JOB}, arguments))
            content = (folder / "a.csv").read_text()
            self.assertEqual(read_tables(folder, Window, {"a": JOB})["a"].text(), content)
            for length in range(len(content)):
                (folder / "a.csv").write_text(content[:length])
                with self.subTest(every=every, first=first, length=length):
                    message = "1 of 1 tables in .* cannot be used"
                    self.assertRaisesRegex(ValueError, message, read_tables, folder, Window, {"a": JOB})

    def test_a_short_series(self) -> None:
        self.folder /= "series"
        self.task(write_inputs(self.folder, {"a": JOB}, ["series"]))
        lines = (self.folder / "a.csv").read_text().splitlines(keepends=True)
        (self.folder / "a.csv").write_text("".join(lines[:5]))
        self.assertEqual(self.fault({"a": JOB}, Window), ["a.csv is short: its last window ends after 4 of 10 steps"])
        (self.folder / "a.csv").write_text("".join(lines[:3] + lines[4:]))
        self.assertRegex(
            self.fault({"a": JOB}, Window)[0], "^a.csv (has other windows than its job|is damaged: .* window)"
        )


if __name__ == "__main__":
    unittest.main()
