"""The exit status of a child process, if several threads ask for it, or if something else takes it."""
import os
import signal
import subprocess
import sys
import threading
import unittest
from typing import Any
from unittest import mock

from trlab import ExitStatusError
from trlab._runs.children import Child


def python_running(script: str = "", **options: Any) -> Child:
    return Child([sys.executable, "-c", script], **options)


def has_ended(child: Child) -> None:
    """Wait until a child has ended, and leave its exit status to it."""
    os.waitid(os.P_PID, child.pid, os.WEXITED | os.WNOWAIT)


class Children(unittest.TestCase):
    def test_statuses(self) -> None:
        for script, status in (
            ("", 0), ("raise SystemExit(3)", 3), ("import os; os.kill(os.getpid(), 15)", -signal.SIGTERM),
        ):
            with python_running(script) as child:
                self.assertEqual(
                    [child.exit_status(), child.exit_status(), child.wait(), child.returncode], [status] * 4
                )

    def test_a_killed_child(self) -> None:
        with python_running("input()", stdin=subprocess.PIPE) as child:
            child.kill()
            self.assertEqual(child.exit_status(), -signal.SIGKILL)
            child.kill()
            self.assertEqual(child.exit_status(), -signal.SIGKILL)

    def test_a_child_that_is_killed_too_late_keeps_its_status(self) -> None:
        """Also for a thread that asks the system for it at the same time."""
        with python_running("raise SystemExit(3)") as child:
            has_ended(child)
            child.kill()
            has_ended(child)
            self.assertEqual(child.exit_status(), 3)

    def test_a_thread_that_asks_while_another_one_takes_the_status(self) -> None:
        """The other thread has taken it from the system, and has not noted it yet."""
        statuses, finds_none = [], threading.Event()
        take, ask = os.waitpid, os.waitid

        def waitid(*arguments: int) -> object:
            try:
                return ask(*arguments)
            except ChildProcessError:
                finds_none.set()
                raise

        def waitpid(*arguments: int) -> tuple[int, int]:
            result = take(*arguments)
            other.start()
            finds_none.wait()
            return result

        with python_running("raise SystemExit(3)") as child:
            other = threading.Thread(target=lambda: statuses.append(child.exit_status()))
            with mock.patch.object(os, "waitid", waitid), mock.patch.object(os, "waitpid", waitpid):
                statuses.append(child.exit_status())
                other.join()
        self.assertEqual(statuses, [3, 3])

    def test_a_status_that_something_else_takes_is_lost(self) -> None:
        """It is lost for every call of `Child` that comes afterwards."""
        for name in "exit_status", "kill", "wait":
            with self.subTest(call=name), python_running("raise SystemExit(3)") as child:
                os.waitpid(child.pid, 0)
                with mock.patch.object(os, "kill", side_effect=AssertionError("another process may have this number")):
                    if name != "exit_status":
                        getattr(child, name)()
                    self.assertRaisesRegex(ExitStatusError, "is lost", child.exit_status)


if __name__ == "__main__":
    unittest.main()
