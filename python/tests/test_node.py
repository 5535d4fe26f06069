"""The program in WebAssembly: Node runs it on machines that no native program fits, with the same results."""
import hashlib
import os
import shutil
import subprocess
import sys
import tempfile
import unittest
from pathlib import Path
from typing import Any
from unittest import mock

import trlab
from tests.processes import PYTHON
from tests.skips import Test
from tests.waiting import holds
from trlab import Job, Nasch, ProgramNotFoundError, RejectedInputError, Sweep, find_program
from trlab._runs import location, node, systems
from trlab._runs.cache import program_identity

PROGRAM = node.of_package()
JOB = Job(limit=5, length=60, cars=20, rule=Nasch("1/4"), steps=200, key=7)
SWEEP = Sweep(limit=5, length=50, rule=Nasch(0), warm=5, measure=10, densities=[0.1, 0.5])


def needs_node(test: Test) -> Test:
    if shutil.which("node") is None:
        return unittest.skip("Node is not installed")(test)
    return unittest.skipIf(PROGRAM is None, "the release has no page with the program")(test)


def results_of_calls() -> tuple[object, ...]:
    """A result of each command of the program."""
    program = trlab.check("motion\nnum r0, 0\ngo r0\n")
    return JOB.run().text(), JOB.series(every=20).text(), SWEEP.sweep().text(), program


def elsewhere() -> tuple[Any, ...]:
    """As on a machine that no native program fits."""
    for cached in location._packed, location.of_checkout, location._for_node:
        cached.cache_clear()
    environment = {name: value for name, value in os.environ.items() if name != "TRLAB"}
    without_name = mock.patch.dict(os.environ, environment, clear=True)
    return without_name, mock.patch.object(location, "fits_native_programs", return_value=False)


class Elsewhere(unittest.TestCase):
    """Tests on such a machine."""

    def setUp(self) -> None:
        # The results of the native program.
        self.native_results = results_of_calls()
        for change in elsewhere():
            change.start()
            self.addCleanup(change.stop)
        for cached in location._packed, location.of_checkout, location._for_node:
            self.addCleanup(cached.cache_clear)


@needs_node
class Results(Elsewhere):
    def test_the_script_is_found_and_gives_the_same(self) -> None:
        assert PROGRAM is not None
        self.assertEqual(find_program(), str(PROGRAM.script))
        self.assertEqual(results_of_calls(), self.native_results)
        self.assertEqual(trlab.run_all([SWEEP, SWEEP], Sweep.sweep), [SWEEP.sweep()] * 2)

    def test_errors_are_the_same(self) -> None:
        with self.assertRaises(RejectedInputError) as caught:
            trlab.check("motion\nget r0, speed\ngo r0\n")
        self.assertEqual(caught.exception.line, 3)
        self.assertEqual(caught.exception.pc, 1)
        self.assertIn("valid job", trlab.explain(JOB))

    def test_a_cache_knows_the_program(self) -> None:
        assert PROGRAM is not None
        version, digest = program_identity()
        self.assertEqual(version, f"trlab {trlab.__version__}")
        self.assertEqual(digest, hashlib.sha256(PROGRAM.module()).hexdigest())
        self.assertIn(digest, trlab.version())
        with tempfile.TemporaryDirectory() as folder:
            first = dict(trlab.results([JOB], cache=folder))
            with mock.patch("trlab._runs.processes.find_program", side_effect=AssertionError("the program runs again")):
                self.assertEqual(dict(trlab.results([JOB], cache=folder)), first)

    def test_a_run_that_is_left_ends(self) -> None:
        snapshots: Any = Job(limit=5, length=1000, cars=200, rule=Nasch("1/4"), steps=500000).snapshots()
        next(snapshots)
        self.assertEqual(len(children_of_node()), 1)
        snapshots.close()
        self.assertTrue(holds(lambda: not children_of_node()))


def children_of_node() -> list[str]:
    """The processes of Node that this process has started."""
    numbers = []
    for folder in Path("/proc").glob("[0-9]*"):
        try:
            arguments, stat = (folder / "cmdline").read_bytes().split(b"\0"), (folder / "stat").read_text()
        except OSError:
            continue
        is_child = int(stat.rpartition(") ")[2].split()[1]) == os.getpid()
        if is_child and any(word.endswith(b"trlab-node.mjs") for word in arguments):
            numbers.append(folder.name)
    return numbers


class NotThere(Elsewhere):
    def setUp(self) -> None:
        super().setUp()
        folder = tempfile.TemporaryDirectory()
        self.addCleanup(folder.cleanup)
        self.folder = Path(folder.name)
        path = mock.patch.dict(os.environ, PATH=str(self.folder))
        path.start()
        self.addCleanup(path.stop)

    def test_without_node_the_message_names_the_package_to_install(self) -> None:
        program = node.InWebAssembly(self.folder / "trlab-node.mjs", self.folder / "trlab-lab.html")
        with mock.patch.object(location, "of_package", return_value=program):
            self.assertRaisesRegex(ProgramNotFoundError, "install Node 18 or later", find_program)
        with mock.patch.object(location, "of_package", return_value=None):
            self.assertRaisesRegex(ProgramNotFoundError, "trlab is not found", find_program)
        self.assertRaisesRegex(ProgramNotFoundError, "needs Node 18", node.command_of, "trlab-node.mjs")

    def test_a_damaged_page_is_rejected(self) -> None:
        (self.folder / "node").write_text("#!/bin/sh\n")
        (self.folder / "node").chmod(0o755)
        program = node.InWebAssembly(self.folder / "trlab-node.mjs", self.folder / "trlab-lab.html")
        packed = '<script type="text/plain" id="program">H4sIAAAAAAAC/0vKSczLTi0CAJsA0a4HAAAA</script>'
        (self.folder / "release.txt").write_text(f"wasm {64 * '0'}\n")
        for page, message in (
            ("<p>", "contains no program"), (packed[:50] + "</script>", "is damaged"), (packed, "is damaged"),
        ):
            program.page.write_text(page)
            with self.subTest(page), mock.patch.object(location, "of_package", return_value=program):
                self.assertRaisesRegex(ProgramNotFoundError, message, find_program)


class Named(unittest.TestCase):
    @needs_node
    def test_trlab_may_name_the_script(self) -> None:
        assert PROGRAM is not None
        with mock.patch.dict(os.environ, TRLAB=str(PROGRAM.script)):
            self.assertEqual(find_program(), str(PROGRAM.script))
            self.assertEqual(SWEEP.sweep().text().count("\n"), 3)
            environment = {**os.environ, "PYTHONPATH": str(PYTHON)}
            process = subprocess.run(
                [sys.executable, "-m", "trlab", "--version"], env=environment, capture_output=True, text=True
            )
            self.assertEqual(process.returncode, 0)
            self.assertEqual(process.stdout.split("\n")[0], f"trlab {trlab.__version__}")


OTHER_SYSTEM = """
import concurrent.futures.thread, os, random, signal, socket, subprocess, sys, tempfile
for name in "register_at_fork", "sched_getaffinity", "waitid", "O_NONBLOCK":
    delattr(os, name)
if sys.argv[1] == "windows":
    for name in "SIGHUP", "SIGCHLD", "SIGQUIT":
        delattr(signal, name)
import trlab
job = trlab.Job(limit=5, length=20, cars=5, rule=trlab.Nasch(0), steps=10)
print(dict(trlab.results({"a": job, "b": job}, cache=sys.argv[2]))["b"][-1].step)
"""


class Systems(unittest.TestCase):
    def test_the_package_runs_without_the_features_of_linux(self) -> None:
        for name in "macos", "windows":
            with self.subTest(name), tempfile.TemporaryDirectory() as folder:
                environment = {**os.environ, "PYTHONPATH": str(PYTHON), "TRLAB": find_program()}
                command = [sys.executable, "-c", OTHER_SYSTEM, name, folder]
                process = subprocess.run(command, env=environment, capture_output=True, text=True)
                self.assertEqual(process.returncode, 0, process.stderr)
                self.assertEqual(process.stdout, "10\n", process.stderr)

    def test_running_processes_are_known_without_proc(self) -> None:
        process = subprocess.Popen(["true"])
        process.wait()
        with mock.patch("os.path.isdir", return_value=False):
            self.assertEqual(
                [systems.is_running(number) for number in (os.getpid(), 1, process.pid)], [True, True, False]
            )
        self.assertEqual([systems.is_running(number) for number in (os.getpid(), 1, process.pid)], [True, True, False])


if __name__ == "__main__":
    unittest.main()
