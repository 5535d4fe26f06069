"""An output counts only if it has all lines that its input gives, for any exit status; no other output is kept."""
import hashlib
import os
import signal
import subprocess
import sys
import tempfile
import threading
import unittest
from collections.abc import Callable, Generator
from contextlib import AbstractContextManager
from pathlib import Path
from typing import Any, Union, cast
from unittest import mock

import trlab
from tests.processes import MARK, PYTHON, child, kill, marked
from tests.skips import needs_pools
from tests.waiting import holds
from trlab import (
    ExitStatusError, IncompleteOutputError, Job, Nasch, OutputFormatError, ProgramError, RejectedInputError, Rickert,
)
from trlab import Sweep, check, explain, find_program
from trlab._runs import cache as caching
from trlab._runs.requests import Request

JOB = Job(limit=5, length=20, cars=4, rule=Nasch(0.25), steps=6)
TWO_LANES = Job(limit=5, length=20, lanes=2, cars=7, rule=Rickert(0.25, 1), steps=6)
SWEEP = Sweep(limit=5, length=20, rule=Nasch(0.25), warm=5, measure=6, cars=[3, 4, 5])

CALLS: dict[str, Callable[[], object]] = {
    "run": lambda: JOB.run(every=2),
    "run of two lanes": lambda: TWO_LANES.run(every=3, first=0),
    "snapshots": lambda: list(JOB.snapshots(every=2)),
    "series": lambda: JOB.series(every=2),
    "sweep": SWEEP.sweep,
}


def called(call: Callable[[], object]) -> object:
    return call()


def replaced_program(folder: Union[str, Path], lines: str) -> AbstractContextManager[object]:
    """A program in the shell: `real` in its lines is trlab with the same arguments."""
    path = Path(folder) / "fake_trlab"
    path.write_text(
        f'#!/bin/sh\nreal() {{ "{find_program()}" "$@"; }}\n[ "$1" != --version ] || exec echo trlab 0\n{lines}\n'
    )
    path.chmod(0o755)
    return mock.patch.dict(os.environ, TRLAB=str(path))


class Lines(unittest.TestCase):
    def test_the_number_of_lines_is_that_of_the_program(self) -> None:
        jobs = [JOB, TWO_LANES, Job(limit=1, length=1, cars=0, rule=Nasch(0), steps=0)]
        for text in (job.text() for job in jobs):
            for options in "", "--every 2", "--from 3", "--every=4 --from=1", "--every 7", "--from 9":
                for command in "run", "series":
                    arguments = (command, *options.split())
                    with self.subTest(words=arguments):
                        self.assertEqual(Request(arguments, text).lines(), self.lines(arguments, text))
        self.assertEqual(Request(("sweep",), SWEEP.text()).lines(), self.lines(("sweep",), SWEEP.text()))
        self.assertIsNone(Request(("check",), "motion\n").lines())

    def lines(self, arguments: tuple[str, ...], text: str) -> int:
        return subprocess_output(Request(arguments, text)).count("\n")


class Incomplete(unittest.TestCase):
    def setUp(self) -> None:
        folder = tempfile.TemporaryDirectory()
        self.addCleanup(folder.cleanup)
        self.folder = Path(folder.name)
        self.cache = self.folder / "cache"

    def try_all(self, lines: str, *errors: type[Exception]) -> None:
        """Every call of such a program raises one of these errors, and no output is kept."""
        expected = errors or (IncompleteOutputError,)
        with replaced_program(self.folder, lines):
            for name, call in CALLS.items():
                with self.subTest(call=name):
                    self.assertRaises(expected, call)
                    results = trlab.results([call], call=called, cache=self.cache)
                    self.assertRaises(expected, list, results)
                    self.assertEqual(list(self.cache.iterdir()), [])

    def test_no_output(self) -> None:
        self.try_all("cat >/dev/null")

    def test_cut_between_two_lines(self) -> None:
        for lines in 1, 2, 3, -1:
            self.try_all(f'real "$@" | head -n {lines}', IncompleteOutputError, OutputFormatError)

    def test_cut_in_the_middle_of_a_line(self) -> None:
        for length in 3, 50, 70:
            self.try_all(f'real "$@" | head -c {length}', IncompleteOutputError, OutputFormatError)

    def test_a_last_line_without_its_end(self) -> None:
        self.try_all('printf %s "$(real "$@")"', IncompleteOutputError, OutputFormatError)

    def test_too_many_lines(self) -> None:
        self.try_all('real "$@"; echo 1')
        self.try_all('real "$@"; printf 1')
        self.try_all('cat >input; real "$@" <input; real "$@" <input'.replace("input", f'"{self.folder}/input"'))

    def test_the_exit_status_is_reported_first(self) -> None:
        self.try_all('real "$@" | head -n 1; exit 3', ProgramError)
        self.try_all("kill -9 $$", ProgramError)

    def test_an_endless_output_is_stopped(self) -> None:
        for lines in (
            "while :; do echo 0; done", "while :; do printf 0; done", "cat /dev/zero", 'real "$@"; cat /dev/zero',
        ):
            mark = f"endless {id(lines)}"
            with mock.patch.dict(os.environ, {MARK: mark}):
                self.try_all(lines)
                with replaced_program(self.folder, lines):
                    for call in lambda: check("motion\ngo 0\n"), lambda: explain(JOB):
                        if "real" not in lines and "do" not in lines:
                            self.assertRaisesRegex(IncompleteOutputError, "wrote more than an answer has", call)
            self.assertTrue(holds(lambda: not marked(mark, "/bin/sh")))

    def test_snapshots_one_by_one_end_with_the_error(self) -> None:
        with replaced_program(self.folder, 'real "$@" | head -n 4'):
            snapshots = JOB.snapshots()
            self.assertEqual([next(snapshots).step for _ in range(2)], [0, 1])
            self.assertRaisesRegex(IncompleteOutputError, "`trlab run` wrote 4 of the 14 lines", next, snapshots)

    def test_bytes_that_are_not_text(self) -> None:
        with replaced_program(self.folder, r"printf '\377\n'"):
            self.assertRaisesRegex(OutputFormatError, "bytes that are not text", check, "motion\ngo 0\n")

    def test_a_verdict_without_its_end(self) -> None:
        with replaced_program(self.folder, 'printf %s "$(real "$@")"'):
            program = "motion\nget r0, gap\nget r1, limit\nmin r0, r0, r1\ngo r0\n"
            self.assertRaisesRegex(IncompleteOutputError, "without its end", check, program)

    def test_a_rejection_that_is_not_explained(self) -> None:
        with replaced_program(self.folder, '[ "$1" = explain ] && real "$@" || { echo fault line 1 cause 1; exit 1; }'):
            self.assertRaisesRegex(ProgramError, "accepts", JOB.run)

    def test_a_kept_output_that_is_not_complete_is_replaced(self) -> None:
        request = Request(("series",), JOB.text())
        table = JOB.series()
        cut = "".join(f"{line}\n" for line in subprocess_output(request).splitlines()[:3]).encode()
        self.cache.mkdir()
        key = caching.key_of(request)
        caching.Cache(self.cache).path(key).write_bytes(caching._heading(key, hashlib.sha256(cut).hexdigest()) + cut)
        results = dict(trlab.results([JOB], call=Job.series, cache=self.cache))
        self.assertEqual(results, {0: table})


def subprocess_output(request: Request) -> str:
    command = [find_program(), *request.arguments]
    return subprocess.run(command, input=request.text, stdout=subprocess.PIPE, text=True, check=True).stdout


# Prints the class of the exception that each call raises, or of its result.
EACH_CALL = """
import sys, trlab
from trlab.lab import Lab
job = trlab.Job(limit=5, length=10, cars=1, rule=trlab.Nasch(0), steps=1)
calls = [job.run, job.series, lambda: list(job.snapshots()), lambda: list(trlab.results([job])),
         lambda: trlab.run_all([job], trlab.Job.run), lambda: trlab.check("motion\\ngo 0\\n"),
         lambda: trlab.explain(job), trlab.version, Lab]
for call in calls:
    try:
        print(type(call()).__name__)
    except Exception as error:
        print(type(error).__name__, "signal.signal(signal.SIGCHLD, signal.SIG_DFL)" in str(error))
"""


class Statuses(unittest.TestCase):
    def test_a_status_that_would_be_lost_is_an_error(self) -> None:
        environment = {**os.environ, "PYTHONPATH": str(PYTHON), "TRLAB": find_program()}
        for prefix in "", "env --ignore-signal=CHLD":
            command = [*prefix.split(), sys.executable, "-c", EACH_CALL]
            process = subprocess.run(command, env=environment, stdout=subprocess.PIPE, text=True, check=True)
            printed = process.stdout.splitlines()
            self.assertEqual(printed.count("ExitStatusError True"), len(printed) if prefix else 0, process.stdout)

    def test_a_status_that_another_takes_is_an_error(self) -> None:
        """A server that waits for any child process takes the statuses of all."""
        is_over = threading.Event()

        def reap() -> None:
            while not is_over.is_set():
                try:
                    os.waitpid(-1, 0)
                except ChildProcessError:
                    is_over.wait(0.01)

        with tempfile.TemporaryDirectory() as folder, replaced_program(folder, 'real "$@"; kill -9 $$'):
            # Before this the program has run for its version.
            find_program()
            reaper = threading.Thread(target=reap)
            reaper.start()
            try:
                # The program's own status is seen if we are faster.
                self.assertRaisesRegex(
                    (ExitStatusError, ProgramError), "exit status of trlab is lost|ended with status -9", JOB.run
                )
            finally:
                is_over.set()
                reaper.join()


# Sweeps that take minutes, and write no output until they end; a signal comes after the first line.
ENDLESS = """
import os, signal, sys, threading, trlab
from concurrent.futures import ProcessPoolExecutor, ThreadPoolExecutor
long = trlab.Sweep(limit=5, length=100000, lanes=2, cars=[99999], rule=trlab.Rickert(0.25, 1), warm=0, measure=500000)
short = trlab.Sweep(limit=5, length=10, cars=[1], rule=trlab.Nasch(0), warm=0, measure=1)
job = trlab.Job(limit=5, length=20000, density=0.2, rule=trlab.Nasch(0.25), steps=500000)
way, cache = sys.argv[1:]
signal.signal(signal.SIGHUP, signal.SIG_DFL)  # `nohup` has its processes ignore it
if way == "handled":
    signal.signal(signal.SIGTERM, lambda *_: sys.exit(7))
def receive():
    signal.pthread_kill(threading.get_ident(), int(os.read(0, 9) or 0))
threading.Thread(target=receive, daemon=True).start()
print("ready", flush=True)
if way in ("sweep", "handled"):
    long.sweep()
elif way == "snapshots":
    for snapshot in job.snapshots(every=1000):
        pass
elif way == "inner":
    trlab.run_all([long], lambda sweep: trlab.run_all([sweep, sweep], trlab.Sweep.sweep, at_once=2))
else:
    kind = {"threads": lambda: None, "pool": lambda: ThreadPoolExecutor(2), "processes": lambda: ProcessPoolExecutor(2)}
    options = {"cache": cache, "executor": kind[way](), "at_once": 2}
    for name, table in trlab.results([short, long, long], call=trlab.Sweep.sweep, **options):
        pass
"""

# The signal comes when the program runs already, and before its process is known.
IN_BETWEEN = """
import os, signal, trlab
from trlab._runs import processes
class Child(processes.Child):
    def __init__(self, *arguments, **options):
        super().__init__(*arguments, **options)
        os.kill(os.getpid(), signal.SIGTERM)
trlab.find_program()
processes.Child = Child
trlab.Sweep(limit=5, length=100000, lanes=2, cars=[99999], rule=trlab.Rickert(0.25, 1), warm=0, measure=500000).sweep()
"""


class Signals(unittest.TestCase):
    """SIGTERM and SIGHUP end a study as they would without trlab, and its programs with it."""

    def try_one(self, way: str, number: int, programs: int, in_thread: bool = False) -> int:
        with tempfile.TemporaryDirectory() as cache:
            process = child(ENDLESS, way, cache)
            try:
                self.assertEqual(process.read_line(), "ready\n")
                self.assertTrue(process.comes_to_run(programs))
                if in_thread:
                    process.write_line(str(int(number)))
                else:
                    process.send_signal(number)
                status = process.wait()
                self.assertTrue(holds(lambda: not marked(process.mark, find_program())))
                if way != "processes":
                    self.assertEqual([file.name for file in Path(cache).iterdir() if file.name.startswith(".")], [])
                return status
            finally:
                kill(process)

    def try_all(self, way: str, programs: int) -> None:
        for number in signal.SIGTERM, signal.SIGHUP:
            with self.subTest(way=way, signal=number):
                self.assertEqual(self.try_one(way, number, programs), -number)

    def try_in_thread(self, way: str, programs: int) -> None:
        """Another thread gets the signal. The same happens if it comes just before the main thread waits."""
        with self.subTest(way=way):
            self.assertEqual(self.try_one(way, signal.SIGTERM, programs, in_thread=True), -signal.SIGTERM)

    def test_all_kinds_of_ends(self) -> None:
        for way, programs in {"sweep": 1, "snapshots": 1, "inner": 2, "threads": 2, "pool": 2}.items():
            self.try_all(way, programs)

    def test_a_signal_that_does_not_interrupt_the_main_thread(self) -> None:
        for way, programs in {"sweep": 1, "inner": 2, "threads": 2}.items():
            self.try_in_thread(way, programs)

    @needs_pools
    def test_signals_with_processes(self) -> None:
        self.try_all("processes", 2)
        self.try_in_thread("processes", 2)

    def test_a_signal_while_a_program_is_started(self) -> None:
        process = child(IN_BETWEEN)
        try:
            self.assertEqual(process.wait(), -signal.SIGTERM)
            self.assertTrue(holds(lambda: not marked(process.mark, find_program())))
        finally:
            kill(process)

    def test_a_handler_of_the_script_stays(self) -> None:
        self.assertEqual(self.try_one("handled", signal.SIGTERM, 1), 7)

    def test_afterwards_the_signals_are_as_before(self) -> None:

        def handlers() -> list[object]:
            return [signal.getsignal(number) for number in (signal.SIGTERM, signal.SIGHUP)]

        before = handlers()
        results = trlab.results([JOB, JOB])
        first = next(results)
        self.assertNotEqual(handlers(), before)
        JOB.series()
        self.assertEqual(dict([first, *results]), {0: JOB.run(), 1: JOB.run()})
        self.assertEqual(handlers(), before)

    def test_a_process_that_was_forked_has_none_of_it(self) -> None:
        results = cast("Generator[Any, None, None]", trlab.results([JOB, JOB]))
        next(results)
        number = os.fork()
        if number == 0:
            os._exit(0 if signal.getsignal(signal.SIGTERM) == signal.SIG_DFL else 1)
        self.assertEqual(os.waitpid(number, 0)[1], 0)
        results.close()

    def test_the_first_process_of_a_container(self) -> None:
        command = ["unshare", "--pid", "--fork", "--kill-child"]
        if subprocess.run([*command, "true"], stderr=subprocess.DEVNULL).returncode:
            self.skipTest("unshare is not allowed")
        script = "import os, signal, trlab; from trlab._runs.processes import new_processes\n" \
            "with new_processes():\n    os.kill(os.getpid(), signal.SIGTERM)\nprint('goes on')"
        environment = {**os.environ, "PYTHONPATH": str(PYTHON), "TRLAB": find_program()}
        process = subprocess.run(
            [*command, sys.executable, "-c", script], env=environment, stdout=subprocess.PIPE, text=True
        )
        self.assertEqual(process.returncode, 143)
        self.assertEqual(process.stdout, "")


class Encodings(unittest.TestCase):
    def test_errors_do_not_depend_on_the_locale(self) -> None:
        script = (
            "import trlab, json\n"
            "for program in 'motion\\ng\\u00e9t r0, speed\\n', 'motion\\nget \\u00e9\\u00e9 r0, speed\\n':\n"
            "    try:\n        trlab.check(program)\n"
            "    except trlab.RejectedInputError as error:\n"
            "        print(json.dumps([error.line, error.first, error.last, str(error), trlab.explain(program)]))"
        )
        outputs = set()
        without_utf_8 = {"LC_ALL": "C", "PYTHONUTF8": "0", "PYTHONCOERCECLOCALE": "0"}
        with_utf_8 = {"LC_ALL": "C.UTF-8", "PYTHONUTF8": "1"}
        unchanged: dict[str, str] = {}
        for changes in unchanged, without_utf_8, with_utf_8:
            environment = {**os.environ, "PYTHONPATH": str(PYTHON), "TRLAB": find_program(), **changes}
            process = subprocess.run(
                [sys.executable, "-c", script], env=environment, stdout=subprocess.PIPE, text=True, check=True
            )
            self.assertEqual(len(process.stdout.splitlines()), 2)
            outputs.add(process.stdout)
        self.assertEqual(len(outputs), 1)

    def test_bytes_that_were_not_text_reach_the_program(self) -> None:
        with self.assertRaises(RejectedInputError) as caught:
            check(b"motion\ng\xff\xfft r0, speed\n".decode("utf-8", "surrogateescape"))
        self.assertEqual(caught.exception.line, 2)
        self.assertEqual(caught.exception.first, 1)
        self.assertRaisesRegex(trlab.ParameterError, "a character that no file has", check, "motion\n\ud800\n")


if __name__ == "__main__":
    unittest.main()
