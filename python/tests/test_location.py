"""The program is found, or one class of error gives the reason; first use leaves no other files behind."""
import gzip
import hashlib
import os
import subprocess
import sys
import tempfile
import unittest
from collections.abc import Callable
from pathlib import Path
from typing import Any
from unittest import mock

from tests.processes import PYTHON
from trlab import Job, Nasch, ProgramNotFoundError, TrlabError, find_program
from trlab._runs import location
from trlab._runs.ownership import new_path


class Folder(unittest.TestCase):
    def setUp(self) -> None:
        folder = tempfile.TemporaryDirectory()
        self.addCleanup(folder.cleanup)
        self.folder = Path(folder.name)


class Named(Folder):
    def script(self, content: bytes, mode: int = 0o755) -> str:
        path = self.folder / "trlab"
        path.write_bytes(content)
        path.chmod(mode)
        return str(path)

    def test_all_reasons_for_a_missing_program_are_one_class(self) -> None:
        working = b"#!/bin/sh\necho trlab 0\n"
        named = {
            "there is no file": [str(self.folder / "missing"), str(self.folder), "~nobody of this name/trlab"],
            "is not executable": [self.script(working, 0o644)],
        }
        for message, names in named.items():
            for name in names:
                with self.subTest(name), mock.patch.dict(os.environ, TRLAB=name):
                    self.assertRaisesRegex(ProgramNotFoundError, message, find_program)
        shell = b"#!/bin/sh\n"
        other_programs = [shell + line for line in (b"echo other 0\n", b"exit 3\n", b"cat /dev/zero\n")]
        for content in *other_programs, b"#!/nowhere\n", b"\0\1\2", b"":
            with self.subTest(content), mock.patch.dict(os.environ, TRLAB=self.script(content)):
                self.assertRaisesRegex(ProgramNotFoundError, "is not trlab", find_program)
        self.assertTrue(issubclass(ProgramNotFoundError, (TrlabError, FileNotFoundError)))

    def test_a_program_that_vanishes_or_changes_after_it_was_found(self) -> None:
        job = Job(limit=5, length=10, cars=1, rule=Nasch(0), steps=1)
        changes: list[Callable[[str], object]] = [
            os.unlink, lambda path: os.chmod(path, 0o644), lambda path: Path(path).write_text("#!/nowhere\n"),
        ]
        for change in changes:
            path = self.script(b"#!/bin/sh\necho trlab 0\n")
            with mock.patch("trlab._runs.processes.find_program", return_value=path):
                change(path)
                self.assertRaisesRegex(ProgramNotFoundError, "cannot be run", job.run)

    def test_the_command_reports_a_missing_program_in_one_line(self) -> None:
        environment = {**os.environ, "PYTHONPATH": str(PYTHON), "TRLAB": str(self.folder / "missing")}
        process = subprocess.run([sys.executable, "-m", "trlab"], env=environment, stderr=subprocess.PIPE, text=True)
        self.assertEqual(process.returncode, 1)
        self.assertEqual(process.stderr.count("\n"), 1)
        self.assertRegex(process.stderr, "^trlab: TRLAB is ")


class Packed(Folder):
    """A program in the installed package, which is unpacked on first use."""

    def setUp(self) -> None:
        super().setUp()
        self.content = b"#!/bin/sh\necho trlab 0\n" + os.urandom(5000)
        self.sum = hashlib.sha256(self.content).hexdigest()
        self.packed, self.home = self.folder / "programs", self.folder / "home"
        self.packed.mkdir()
        lines = [f"{level} {self.sum}\n" for level in ("x86-64-v2", "x86-64-v3")]
        (self.packed / "release.txt").write_text("# the released programs\n" + "".join(lines), encoding="utf-8")
        self.write(gzip.compress(self.content))
        home = mock.patch.dict(os.environ, XDG_CACHE_HOME=str(self.home))
        packed = mock.patch.object(location, "_PACKED", self.packed)
        changes: list[Any] = [home, packed]
        for change in changes:
            change.start()
            self.addCleanup(change.stop)

    def write(self, content: bytes) -> None:
        for level in "x86-64-v2", "x86-64-v3":
            (self.packed / f"trlab-{level}.gz").write_bytes(content)

    def find(self) -> Any:
        return location._packed.__wrapped__()

    def test_first_use(self) -> None:
        path = self.find()
        self.assertEqual(Path(path).parent, self.home / "trlab")
        self.assertEqual(Path(path).read_bytes(), self.content)
        self.assertEqual([file.name for file in (self.home / "trlab").iterdir()], [Path(path).name])
        self.assertEqual(self.find(), path)
        Path(path).write_bytes(b"damaged")
        self.assertEqual(Path(self.find()).read_bytes(), self.content)

    def test_a_cut_download_is_an_error(self) -> None:
        packed = gzip.compress(self.content)
        changed = packed[:50] + bytes(100) + packed[150:]
        for content in packed[:-9], packed[:100], packed[:5], b"", b"no archive", changed, gzip.compress(b"other"):
            self.write(content)
            with self.subTest(length=len(content)):
                self.assertRaisesRegex(ProgramNotFoundError, "is damaged.*install trlab again", self.find)

    def test_a_new_file_that_another_process_removes(self) -> None:
        fsync = os.fsync

        def remove(handle: int) -> None:
            for file in (self.home / "trlab").glob(".new*"):
                file.unlink()
            fsync(handle)

        with mock.patch("trlab._runs.location.os.fsync", remove):
            path = self.find()
        self.assertEqual(Path(path).read_bytes(), self.content)

    def test_files_of_a_killed_first_use_are_removed(self) -> None:
        folder = self.home / "trlab"
        folder.mkdir(parents=True)
        mine = new_path(folder, "new")
        left = Path(str(mine).replace(f"-{os.getpid()}-", "-999999999-"))
        mine.touch()
        left.touch()
        self.find()
        self.assertEqual([mine.exists(), left.exists()], [True, False])


if __name__ == "__main__":
    unittest.main()
