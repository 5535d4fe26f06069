"""`trlab-lab` on a machine that no native program fits: it opens the page that contains the program."""
import contextlib
import io
import os
import signal
import tempfile
import unittest
import webbrowser
from pathlib import Path
from typing import Union
from unittest import mock

from trlab import ProgramNotFoundError
from trlab.lab import alone
from trlab.lab.__main__ import fragment, main

JOB = Path(__file__).resolve().parents[2] / "examples" / "jams.job"


class Opening(unittest.TestCase):
    def setUp(self) -> None:
        folder = tempfile.TemporaryDirectory()
        self.addCleanup(folder.cleanup)
        self.page = Path(folder.name) / "trlab-lab.html"
        self.page.write_text("")
        self.opened: list[str] = []
        self.can_open = True
        self.patch(alone, "PAGE_PATHS", (Path(folder.name) / "other.html", self.page))
        self.patch(webbrowser, "open", self.open)
        self.patch(os, "environ", {name: value for name, value in os.environ.items() if name != "TRLAB"})

    def open(self, address: str) -> bool:
        """Open an address instead of a browser, or fail."""
        self.opened.append(address)
        return self.can_open

    def patch(self, place: object, name: str, value: object) -> None:
        """Replace a value until the test ends."""
        patch = mock.patch.object(place, name, value)
        patch.start()
        self.addCleanup(patch.stop)

    def find(self, path: Union[str, Exception]) -> None:
        """Let the command find the program at a path, or let its search end with an error."""
        self.patch(alone, "find_program", mock.Mock(side_effect=[path, path]))

    def run_main(self, *words: str) -> tuple[str, str]:
        """The output of the command on standard output and standard error."""
        output, errors = io.StringIO(), io.StringIO()
        with contextlib.redirect_stdout(output), contextlib.redirect_stderr(errors), mock.patch("signal.signal"):
            main(list(words))
        return output.getvalue(), errors.getvalue()

    def test_no_program(self) -> None:
        self.find(ProgramNotFoundError("trlab is not found"))
        reason = "trlab-lab: trlab is not found, so the page computes by itself: it needs no server, and this command ends\n"
        self.assertEqual(self.run_main(), (f"{self.page.as_uri()}\n", reason))
        self.assertEqual(self.opened, [self.page.as_uri()])

    def test_a_script_that_runs_the_program_in_web_assembly(self) -> None:
        self.find("/package/trlab-node.mjs")
        output, errors = self.run_main("--no-browser", str(JOB))
        self.assertEqual(output, f"{self.page.as_uri()}{fragment(str(JOB))}\n")
        self.assertIn("no native program of trlab fits this machine, so the page computes by itself", errors)
        self.assertEqual(self.opened, [])

    def test_no_browser_can_be_opened(self) -> None:
        self.find(ProgramNotFoundError("trlab is not found"))
        self.can_open = False
        self.assertIn("no browser could be opened. Open this address in one.\n", self.run_main()[1])

    def test_a_native_program(self) -> None:
        self.find("/usr/bin/trlab")
        self.assertIsNone(alone.page_needed())

    def test_no_page(self) -> None:
        self.find(ProgramNotFoundError("trlab is not found"))
        self.page.unlink()
        with self.assertRaises(SystemExit) as raised:
            self.run_main()
        message = str(raised.exception.code)
        self.assertIn("trlab is not found; and there is no page that contains the program, ", message)
        self.assertEqual(self.opened, [])

    def test_a_wrong_name_in_the_environment(self) -> None:
        with mock.patch.dict(os.environ, {"TRLAB": "/nothing"}), self.assertRaises(SystemExit) as raised:
            self.run_main()
        self.assertIn("TRLAB is '/nothing'", str(raised.exception.code))
        self.assertEqual(self.opened, [])

    def test_a_system_without_the_signal(self) -> None:
        self.find(ProgramNotFoundError("trlab is not found"))
        with mock.patch.object(signal, "SIGCHLD", create=True):
            del signal.SIGCHLD
            self.run_main()
        self.assertEqual(len(self.opened), 1)


if __name__ == "__main__":
    unittest.main()
