"""Outputs that are kept in a folder: each is complete or missing, even if a process is killed; and no process is
left."""
import errno
import json
import os
import signal
import subprocess
import sys
import tempfile
import unittest
from collections.abc import Sequence
from contextlib import AbstractContextManager
from dataclasses import replace
from pathlib import Path
from typing import TypeVar, Union
from unittest import mock

import trlab
from tests.processes import PYTHON, calls, child, kill, logging_program, marked
from tests.skips import needs_pools
from tests.waiting import holds
from trlab import Job, Nasch, ParameterError, ProgramError, RejectedInputError, ResultFilesError, Rickert, Sweep
from trlab._runs import cache as caching
from trlab._runs.cache import Cache
from trlab._runs.calls import ask
from trlab._runs.ownership import new_path
from trlab._runs.requests import Request

Entered = TypeVar("Entered")

SHAPE = Sweep(limit=5, length=100, rule=Nasch(0.25), warm=10, measure=20, cars=[10, 20])
SWEEPS = {f"key_{key}": replace(SHAPE, key=key) for key in range(5)}
JOB = Job(limit=5, length=20, cars=4, rule=Nasch(0.25), steps=9)

# 30 sweeps; after each result the script waits for a line on standard input, or for its end.
MANY = """
import json, sys, trlab
shape = {"limit": 5, "length": 10000, "rule": trlab.Nasch(0.25), "warm": 500, "measure": 500}
sweeps = {key: trlab.Sweep(**shape, cars=[1000], key=key) for key in range(30)}
rows = {}
for key, table in trlab.results(sweeps, cache=sys.argv[1], at_once=2):
    rows[key] = list(table[0])
    print(key, flush=True)
    sys.stdin.readline()
print(json.dumps(sorted(rows.items())), flush=True)
"""

# Runs that would take minutes, in threads or in processes; the scripts differ in the event after the first result.
LONG = """
import signal, sys, trlab
from concurrent.futures import ProcessPoolExecutor, ThreadPoolExecutor
# A shell has its background processes ignore the signal.
signal.signal(signal.SIGINT, signal.default_int_handler)
job = trlab.Job(limit=5, length=20000, density=0.2, rule=trlab.Nasch(0.25), steps=500000)
short = trlab.Job(limit=5, length=10, cars=1, rule=trlab.Nasch(0), steps=1)
kind = {"threads": lambda: None, "pool": lambda: ThreadPoolExecutor(3), "processes": lambda: ProcessPoolExecutor(3)}
pool = kind[sys.argv[1]]()
options = {"call": trlab.Job.series, "executor": pool, "cache": sys.argv[3], "at_once": 4}
if sys.argv[2] == "hold":
    held = trlab.results([short, *3 * [job]], **options)
    next(held)
    print("first", flush=True)
    sys.stdin.readline()
    raise KeyError
try:
    for name, table in trlab.results([short, *3 * [job]], **options):
        print("first", flush=True)
        if sys.argv[2] == "raise":
            sys.stdin.readline()
            raise KeyError(name)
        if sys.argv[2] == "break":
            sys.stdin.readline()
            break
except BaseException as error:
    print(type(error).__name__, flush=True)
print("over", flush=True)
sys.stdin.read()
"""


class Keys(unittest.TestCase):
    def test_a_call_an_input_or_a_program_that_changes_has_another_key(self) -> None:
        with tempfile.TemporaryDirectory() as folder:
            keys = [
                key_of_call(["series"], "a"), key_of_call(["series", "--every", "2"], "a"), key_of_call(["series"], "b")
            ]
            with mock.patch.dict("os.environ", TRLAB=str(other_version(folder))):
                keys.append(key_of_call(["series"], "a"))
        keys += [key_of_call(["series", "a"], ""), key_of_call(["seriesa"], "")]
        self.assertEqual(len(set(keys)), 6)
        self.assertEqual(key_of_call(["series"], "a"), keys[0])

    def test_a_program_that_is_replaced_under_its_path_has_another_key(self) -> None:
        with tempfile.TemporaryDirectory() as folder:
            keys = set()
            for version in "1", "2":
                with mock.patch.dict("os.environ", TRLAB=str(other_version(folder, version))):
                    keys.add(key_of_call(["series"], "a"))
        self.assertEqual(len(keys), 2)

    def test_a_script_has_the_key_of_the_program_that_it_runs(self) -> None:
        with tempfile.TemporaryDirectory() as folder:
            keys = set()
            for version in "1", "2":
                behind = other_version(folder, version)
                script = Path(folder) / "script"
                script.write_text(f'#!/bin/sh\n[ "$1" = --where ] && echo {behind} || echo trlab 0\n')
                script.chmod(0o755)
                with mock.patch.dict("os.environ", TRLAB=str(script)):
                    keys.add(key_of_call(["series"], "a"))
        self.assertEqual(len(keys), 2)


def key_of_call(arguments: Sequence[str], text: str) -> str:
    """The key of the call with these words and this input."""
    return caching.key_of(Request(tuple(arguments), text))


def other_version(folder: Union[str, Path], version: str = "0") -> Path:
    path = Path(folder) / f"trlab_{version}"
    path.write_text(f"#!/bin/sh\necho trlab {version}\n")
    path.chmod(0o755)
    return path


class Kept(unittest.TestCase):
    def setUp(self) -> None:
        self.folder = Path(self.entered(tempfile.TemporaryDirectory()))
        self.entered(mock.patch.dict("os.environ", TRLAB=str(logging_program(self.folder))))
        self.cache = self.folder / "cache"
        self.expected = {name: sweep.sweep() for name, sweep in SWEEPS.items()}

    def entered(self, manager: AbstractContextManager[Entered]) -> Entered:
        value = manager.__enter__()
        self.addCleanup(manager.__exit__, None, None, None)
        return value

    def new_calls(self) -> int:
        """Runs all sweeps, compares their tables, and returns the number of calls of the program."""
        before = calls(self.folder, "sweep")
        self.assertEqual(dict(trlab.results(SWEEPS, cache=self.cache)), self.expected)
        self.assertEqual([file.name for file in self.cache.iterdir() if file.name.startswith(".")], [])
        return calls(self.folder, "sweep") - before

    def test_a_second_run_calls_nothing(self) -> None:
        self.assertEqual(self.new_calls(), 5)
        self.assertEqual(self.new_calls(), 0)
        self.assertEqual(len(list(self.cache.glob("*.out"))), 5)

    def test_the_result_of_a_call_is_computed_again_from_the_kept_output(self) -> None:
        steps = [
            dict(trlab.results([JOB], cache=self.cache, call=lambda job: job.series(every=3)[place].step))[0]
            for place in range(3)
        ]
        self.assertEqual(steps, [3, 6, 9])
        self.assertEqual(calls(self.folder, "series"), 1)

    def test_a_damaged_file_is_never_a_result(self) -> None:
        self.new_calls()
        path, other_path, *_ = sorted(self.cache.glob("*.out"))
        content = path.read_bytes()
        other_content = other_path.read_bytes()
        damaged = [b"", content[:10], content[:150], content[:-1], content + b"1", other_content, b"cars,cells\n"]
        # One bit is flipped in each part of the file: the key, the SHA-256, the line feed after it, and the output.
        for place in 0, 20, 100, 143, 144, len(content) - 2:
            damaged.append(content[:place] + bytes([content[place] ^ 1]) + content[place + 1:])
        for number, damaged_content in enumerate(damaged):
            with self.subTest(number=number):
                path.write_bytes(damaged_content)
                self.assertEqual(self.new_calls(), 1)
                self.assertEqual(path.read_bytes(), content)

    def test_a_name_that_is_not_a_file_is_replaced(self) -> None:
        """A pipe, a device or a link has the name of an output: nothing is read from it, and no call waits for it."""
        self.new_calls()
        path = min(self.cache.glob("*.out"))
        content = path.read_bytes()
        victim = self.folder / "victim"
        victim.write_text("untouched")
        for name in "pipe", "/dev/full", "/dev/null", path.name, "nowhere", str(victim):
            with self.subTest(name):
                path.unlink()
                os.mkfifo(path) if name == "pipe" else path.symlink_to(name)
                self.assertEqual(self.new_calls(), 1)
                self.assertIs(path.is_symlink(), False)
                self.assertEqual(path.read_bytes(), content)
        self.assertEqual(victim.read_text(), "untouched")

    def test_a_folder_with_the_name_of_an_output_is_named(self) -> None:
        self.new_calls()
        path = min(self.cache.glob("*.out"))
        path.unlink()
        path.mkdir()
        self.assertRaisesRegex(
            ResultFilesError, f"{path.name} is a folder", dict, trlab.results(SWEEPS, cache=self.cache)
        )
        self.assertEqual([file.name for file in self.cache.iterdir() if file.name.startswith(".")], [])

    def test_a_cache_has_a_name(self) -> None:
        self.assertRaisesRegex(ParameterError, "current folder", trlab.results, SWEEPS, cache="")
        self.assertRaisesRegex(ParameterError, "must be the path of a folder", trlab.results, SWEEPS, cache=True)
        with tempfile.NamedTemporaryFile() as file:
            for cache in file.name, f"{file.name}/cache":
                self.assertRaisesRegex(ParameterError, "is a file, or below one", trlab.results, SWEEPS, cache=cache)

    def test_a_read_only_cache_is_read_and_a_warning_says_that_nothing_is_kept(self) -> None:
        script = """
import os, sys, warnings, trlab
from tests.test_cache import SWEEPS
if os.getuid() == 0:
    os.setuid(65534)
trlab.find_program()
with warnings.catch_warnings(record=True) as caught:
    warnings.simplefilter("always")
    tables = dict(trlab.results(SWEEPS, cache=sys.argv[1]))
messages = [warning.message for warning in caught]
print(tables == {name: sweep.sweep() for name, sweep in SWEEPS.items()}, *messages, sep="|")
"""
        # Root can read and write every file, so that the script runs as the user nobody.
        as_nobody = "import os, sys; os.getuid() or os.setuid(65534); os.listdir(sys.argv[1])"
        if subprocess.run([sys.executable, "-c", as_nobody, str(PYTHON)], stderr=subprocess.DEVNULL).returncode:
            self.skipTest("the tests run as root, and other users cannot read the checkout")
        self.new_calls()
        for file in self.cache.iterdir():
            file.chmod(0o444)
        missing, unreadable, *_ = sorted(self.cache.glob("*.out"))
        unreadable.chmod(0)
        missing.unlink()
        self.folder.chmod(0o755)
        self.cache.chmod(0o555)
        self.addCleanup(self.cache.chmod, 0o755)
        environment = {**os.environ, "PYTHONPATH": str(PYTHON)}
        command = [sys.executable, "-B", "-c", script, str(self.cache)]
        process = subprocess.run(command, env=environment, stdout=subprocess.PIPE, text=True)
        equal, *messages = process.stdout.rstrip("\n").split("|")
        self.assertEqual(process.returncode, 0)
        self.assertEqual(equal, "True")
        self.assertEqual(len(messages), 2)
        self.assertRegex(messages[0], f"not kept, because {self.cache} cannot be written to")
        self.assertEqual(len(list(self.cache.iterdir())), 4)

    def test_a_full_disk_is_an_error(self) -> None:
        full = OSError(errno.ENOSPC, "No space left on device")
        with mock.patch("trlab._runs.cache.os.fsync", side_effect=full), self.assertRaises(OSError) as caught:
            dict(trlab.results(SWEEPS, cache=self.cache))
        self.assertEqual(caught.exception.errno, errno.ENOSPC)
        self.assertEqual(list(self.cache.iterdir()), [])

    def test_a_rejected_input_and_a_failed_run_are_not_kept(self) -> None:
        for _ in range(2):
            self.assertRaisesRegex(
                RejectedInputError, "fault line 5 cause 4", list,
                trlab.results([replace(JOB, rule=Rickert(0, 0))], cache=self.cache),
            )
            with self.assertRaisesRegex(ProgramError, "ended with status 2"):
                list(
                    trlab.results([JOB], call=lambda job: ask(["run", "--workers", "17"], job.text()), cache=self.cache)
                )
        self.assertEqual(calls(self.folder, "run"), 4)
        self.assertEqual(list(self.cache.iterdir()), [])

    def test_snapshots_one_by_one(self) -> None:
        for _ in range(2):
            results = dict(trlab.results([JOB], call=lambda job: next(job.snapshots()), cache=self.cache))
            self.assertEqual(results, {0: JOB.run()[0]})
        self.assertEqual(len(list(self.cache.iterdir())), 1)

    def test_outputs_can_be_read_by_those_who_can_read_the_folder(self) -> None:
        self.new_calls()
        before = os.umask(0o027)
        try:
            Cache(self.cache).path(key_of_call(["sweep"], SHAPE.text())).unlink()
            self.new_calls()
        finally:
            os.umask(before)
        modes = {file.stat().st_mode & 0o777 for file in self.cache.iterdir()}
        self.assertIn(0o640, modes)


class Killed(unittest.TestCase):
    def test_a_killed_run_continues_from_its_last_result(self) -> None:
        with tempfile.TemporaryDirectory() as folder:
            program = str(logging_program(folder))
            cache = Path(folder) / "cache"
            killed = child(MANY, str(cache), TRLAB=program)
            for _ in range(7):
                killed.read_line()
                killed.write_line()
            killed.kill()
            killed.communicate()
            self.assertTrue(holds(lambda: not marked(killed.mark)))
            outputs, done = list(cache.glob("*.out")), calls(folder, "sweep")
            self.assertTrue(7 <= len(outputs) <= done < 30, (len(outputs), done))
            second = child(MANY, str(cache), TRLAB=program)
            second_output, _ = second.communicate()
            self.assertEqual(calls(folder, "sweep"), done + 30 - len(outputs))
            self.assertEqual([file.name for file in cache.iterdir() if not file.name.endswith(".out")], [])
            third_output, _ = child(MANY, str(cache), TRLAB=program).communicate()
        self.assertEqual(json.loads(third_output.splitlines()[-1]), json.loads(second_output.splitlines()[-1]))

    def test_programs_of_a_killed_run_end_and_the_next_one_removes_its_files(self) -> None:
        with tempfile.TemporaryDirectory() as cache:
            running = child(LONG, "threads", "interrupt", cache)
            self.assertEqual(running.read_line(), "first\n")
            self.assertTrue(running.comes_to_run(3))
            mine = child(LONG, "threads", "interrupt", cache)
            self.assertEqual(mine.read_line(), "first\n")
            self.assertTrue(mine.comes_to_run(3))
            running.kill()
            running.communicate()
            self.assertTrue(holds(lambda: not marked(running.mark)))
            Cache(cache).create()
            self.assertEqual(len(marked(mine.mark, trlab.find_program())), 3)
            self.assertEqual(len([file for file in Path(cache).iterdir() if file.name.startswith(".new")]), 3)
            kill(mine)

    def test_only_files_of_ended_processes_are_removed(self) -> None:
        with tempfile.TemporaryDirectory() as folder:
            own, of_other_machine = new_path(Path(folder), "new"), Path(folder) / ".new-trlab-another_machine-1-1-00"
            number = str(os.getpid())
            of_ended_process = Path(str(own).replace(f"-{number}-", "-999999999-"))
            for path in own, of_other_machine, of_ended_process:
                path.touch()
            Cache(folder).create()
            self.assertEqual([path.exists() for path in (own, of_other_machine, of_ended_process)], [True, True, False])


class Stopped(unittest.TestCase):
    """After Ctrl-C, an exception, a loop that is left, or an exit of Python, no process of trlab continues."""

    def try_one(self, executor: str, ending: str) -> list[str]:
        with tempfile.TemporaryDirectory() as cache:
            process = child(LONG, executor, ending, cache)
            try:
                self.assertEqual(process.read_line(), "first\n")
                self.assertTrue(process.comes_to_run(3))
                if ending == "interrupt":
                    process.send_signal(signal.SIGINT)
                else:
                    process.write_line()
                lines = [process.read_line()]
                while lines[-1] not in ("over\n", ""):
                    lines.append(process.read_line())
                self.assertEqual(marked(process.mark, trlab.find_program()), [])
                # The cache would have the other results if the programs had not been stopped.
                self.assertEqual(sorted(file.name[:5] for file in Path(cache).iterdir()), [key_of_short()[:5]])
                return lines
            finally:
                kill(process)

    def try_all(self, executor: str) -> None:
        expected = {
            "interrupt": ["KeyboardInterrupt\n", "over\n"], "raise": ["KeyError\n", "over\n"], "break": ["over\n"],
            "hold": [""],
        }
        for ending, lines in expected.items():
            with self.subTest(executor=executor, ending=ending):
                self.assertEqual(self.try_one(executor, ending), lines)

    def test_all_kinds_of_ends(self) -> None:
        self.try_all("threads")
        self.try_all("pool")

    @needs_pools
    def test_all_kinds_of_ends_with_processes(self) -> None:
        self.try_all("processes")

    @needs_pools
    def test_a_killed_run_leaves_nothing_in_other_processes(self) -> None:
        with tempfile.TemporaryDirectory() as cache:
            running = child(LONG, "processes", "interrupt", cache)
            self.assertEqual(running.read_line(), "first\n")
            self.assertTrue(running.comes_to_run(3))
            running.kill()
            running.wait()
            self.assertTrue(holds(lambda: not marked(running.mark, trlab.find_program())))
            kill(running)


def key_of_short() -> str:
    """The key of the short job in `LONG`."""
    return key_of_call(["series"], Job(limit=5, length=10, cars=1, rule=Nasch(0), steps=1).text())


if __name__ == "__main__":
    unittest.main()
