"""The base of the tests of ./trlab: a checkout for each test, and the runs that several tests expect."""
import os
import shutil
import tempfile
import unittest
from collections.abc import Iterable
from pathlib import Path

from .checkout import Checkout, Run

PREBUILT = "trlab: using the prebuilt binary for these sources (./trlab --prove rebuilds and re-proves it; needs rt)\n"
# Runs of the released program, at first and later, and of a program that was built.
RELEASED_RUN = Run(b"released run --workers 2\ntext", 5)
FIRST_RELEASED_RUN = RELEASED_RUN._replace(messages=PREBUILT)
BUILT_RUN = Run(b"run --workers 2\ntext", 3)
FAILED_STATUS = 70
# Shell commands that make another checkout, `$1`, from a checkout, `$0`.
CLONE = 'cd "$0"; git init -q; git add -A; git -c user.name=a -c user.email=a@b commit -qm a; git clone -q "$0" "$1"'
ARCHIVE = CLONE.replace('git clone -q "$0" "$1"', 'mkdir "$1"; git archive HEAD | tar x -C "$1"')
CLONE_WITH_CRLF = CLONE.replace("git clone -q", "git clone -q -c core.autocrlf=true")
COPY = 'cp -r "$0" "$1"'
LINE_FEED_IN_PATH = 'mv "$0" "$0\n"; ln -s "$0\n" "$1"'
# Shells that start ./trlab with standard error closed, or full.
WITHOUT_STANDARD_ERROR = {"closed": 'exec "$@" 2>&-', "full": 'exec "$@" 2>/dev/full'}
# A shell that starts ./trlab so that new files are not executable.
NOT_EXECUTABLE = 'umask 0111; exec "$@"'


class FirstUse(unittest.TestCase):
    """A test in a small checkout of its own, in which nothing is built or released yet."""

    def setUp(self) -> None:
        self.checkout = self.new_checkout()

    def new_checkout(self) -> Checkout:
        folder = tempfile.TemporaryDirectory()
        self.addCleanup(folder.cleanup)
        return Checkout(Path(folder.name))

    def path_with(self, commands: Iterable[str]) -> str:
        """A PATH with the shell, these commands, and no others."""
        folder = tempfile.mkdtemp(dir=self.checkout.folder)
        for command in ["bash", "sh", *commands]:
            os.symlink(shutil.which(command) or command, os.path.join(folder, command))
        return folder

    def assert_refused(self, run: Run, reason: str) -> None:
        """Nothing ran, and the last message has this reason."""
        self.assertEqual((run.output, run.status), (b"", FAILED_STATUS))
        self.assertIn(reason, run.last_message())

    def assert_nothing_built_or_kept(self) -> None:
        self.assertEqual(self.checkout.count_of_builds(), 0)
        self.assertEqual(self.checkout.kept_programs(), [])

    def assert_builds(self, count: int) -> None:
        """All proofs ran this many times, and out/ has one program."""
        self.assertEqual(self.checkout.count_of_builds(), count)
        self.assertEqual(len(self.checkout.kept_programs()), 1)

    def assert_runs_released(self) -> None:
        """The released program runs, with a message only at its first run, and rt is not called."""
        self.assertEqual(self.checkout.run(), FIRST_RELEASED_RUN)
        self.assertEqual(self.checkout.run(), RELEASED_RUN)
        self.assertEqual(self.checkout.calls_of_rt(), [])

    def assert_runs_built(self) -> None:
        """The first run builds the program, with a message, and the second does not."""
        first = self.checkout.run()
        self.assertEqual(first.without_messages(), BUILT_RUN)
        self.assertIn("crates left to prove", first.messages)
        self.assertEqual(self.checkout.run(), BUILT_RUN)
        self.assertEqual(self.checkout.count_of_builds(), 1)
