"""The page of trlab-lab as one file that contains the program: the tests of the page that need no server, and how a run
ends there."""
import base64
import gzip
import re
import unittest
from pathlib import Path
from unittest import mock

from tests import stub_modules
from tests.browsers import Window, missing
from tests.lab_files import PROGRAM, File, InFile, lacking
from tests.lab_pages import SHOTS, Base, snapshots
from tests.test_lab import sha256
from tests.test_lab_access import ForEveryone
from tests.test_lab_controls import Controls
from tests.test_lab_diagram import Diagram
from tests.test_lab_inputs import Inputs
from tests.test_lab_page import Playing
from trlab._runs.calls import ask
from trlab.lab import server
from trlab.lab.whole import whole_page

# Tests of the server's processes, those of rules in Python, and one that imports a script of the server.
OF_THE_SERVER = (
    "test_a_paused_run_ends_and_goes_on",
    "test_sliders",
    "test_a_rule_in_python",
    "test_rules_in_python_for_two_lanes",
    "test_a_change_in_words",
)
# Tests in which the program computes most. The served page has all tests in both browsers, and the file has them in
# Chromium, so that in Firefox these suffice for the file.
KEPT_IN_FIREFOX = (
    "test_every_snapshot_is_that_of_the_run",
    "test_exact_curves",
    "test_saving",
    "test_a_link",
    "test_a_sweep",
)
# Counts the Workers that run the program (`runs`), and keeps those that have not ended since (`running`). The scripts of a
# test have names of their own in Firefox, so that those of the page are properties of `window`.
WATCH = """window.running = new Set();
window.runs = 0;
const {postMessage, terminate} = window.Worker.prototype;
window.Worker.prototype.postMessage = function(data, ...more) {
    if (data.module) {
        window.running.add(this);
        window.runs += 1;
    }
    window.taken = data.bytesTaken ?? 0;
    postMessage.call(this, data, ...more);
};
window.Worker.prototype.terminate = function() {
    window.running.delete(this);
    terminate.call(this);
}"""


class FilePages(InFile, Playing, Controls, Inputs, Diagram, ForEveryone):
    """The tests of the page, but not those of the server."""

    def test_a_paused_run_ends_and_goes_on_in_its_place(self) -> None:
        self.page.js(WATCH)
        self.page.click("again")
        self.run_to(20)
        self.wait_until(lambda: self.page.js("return window.running.size") == 0)
        self.run_to(1000)
        expected = snapshots(self.page.job())
        for step, cells, *_ in self.page.js(SHOTS):
            self.assertEqual(cells, "".join(expected[step].lanes), step)

    def test_a_run_that_is_replaced_ends(self) -> None:
        self.page.js(WATCH)
        for cars in range(100, 140):
            self.page.set("cars", cars)
        self.wait_for_line("lane ")
        self.wait_for("139", lambda: self.page.value("cars"))
        self.wait_until(lambda: self.page.step() > 2 and self.page.js("return window.running.size") <= 1)

    def test_unread_output_is_bounded(self) -> None:
        self.page.set("stepcount", 500000)
        self.page.set("length", 100000)
        self.wait_until(lambda: self.page.js("return lab.player.film.length") == 100000)
        self.page.js(WATCH)
        self.page.click("again")
        self.run_to(60)
        taken, step, waiting = self.page.js("return [window.taken, lab.player.step, lab.player.run?.maxWaiting ?? 40]")
        # A snapshot has 100,000 cells and a few words. It waits until the page shows it, after some MiB in buffers.
        self.assertLess(taken, (step + waiting + 2) * 100020 + 2**22)

    def test_rules_in_python_need_the_server(self) -> None:
        self.page.set("model", "own")
        self.wait_until(lambda: "Rules in Python need the command trlab-lab" in self.page.text("pythonverdict"))
        self.assertTrue(self.page.js("return document.getElementById('python').hidden"))
        # A run that begins takes a message away.
        self.wait_until_written()
        self.open(server.examples()["overtake.py"], "overtake.py")
        self.wait_until(lambda: "Rules in Python need the command trlab-lab" in self.page.text("fault"))


for name in OF_THE_SERVER:
    setattr(FilePages, name, None)


class WithoutWaiting(InFile):
    """A browser that cannot suspend the program: a run with much unread output ends, and is run again."""

    @classmethod
    def text(cls) -> str:
        text = super().text()
        for old, new in (
            ("const canSuspend = ", "const canSuspend = false && "),
            ("const MAX_BUFFERED_BYTES = 2 ** 26;", "const MAX_BUFFERED_BYTES = 2 ** 18;"),
        ):
            assert text.count(old) == 1, old
            text = text.replace(old, new)
        return text

    def test_it_is_run_again(self) -> None:
        self.page.js(WATCH)
        self.page.click("again")
        # More than the page may have read before.
        self.run_to(4000)
        self.assertGreater(self.page.js("return window.runs"), 2)
        self.are_those_of_the_run()

    def test_a_table(self) -> None:
        self.page.set("stepcount", 12000)
        self.wait_for_line("steps 12000\n")
        self.wait_until_written()
        self.assertEqual(self.saved("savetable"), ask(["series"], self.page.job()))


class Ends(Base):
    """Runs without a result: a message says why, and the console has no error."""

    browser = ""

    def test_messages(self) -> None:
        page = Window(self.browser, "about:blank")
        self.addCleanup(page.close)
        has_stopped = "The program has stopped because of an error, so its output is not complete: "
        for program, message in (
            (stub_modules.MEMORY_RAN_OUT, "The program needs more memory than this browser gives it."),
            (stub_modules.UNKNOWN_STATUS, f"{has_stopped}exit status 7"),
            (stub_modules.TRAP, f"{has_stopped}RuntimeError"),
            (stub_modules.OUTSIDE, f"{has_stopped}RuntimeError"),
            (stub_modules.ENDLESS_CALLS, has_stopped),
            (b"\0asm\1\0\0\0\x7f", "This browser cannot run the program."),  # not a module of WebAssembly
        ):
            with self.subTest(message=message):
                page.get(File(type(self), whole_page(program, {})).address)
                page.wait_until(lambda: page.text("fault"))
                self.assertEqual(page.text("fault")[: len(message)], message)
                self.assertEqual(page.errors(), [])


@unittest.skipIf(missing("chromium"), missing("chromium"))
class EndsInChromium(Ends, unittest.TestCase):
    browser = "chromium"


@unittest.skipIf(missing("firefox"), missing("firefox"))
class EndsInFirefox(Ends, unittest.TestCase):
    browser = "firefox"


@unittest.skipIf(lacking("chromium"), lacking("chromium"))
class FileInChromium(FilePages, unittest.TestCase):
    browser = "chromium"


@unittest.skipIf(lacking("firefox"), lacking("firefox"))
class FileInFirefox(FilePages, unittest.TestCase):
    browser = "firefox"


for name in dir(FilePages):
    if name.startswith("test_") and name not in vars(FilePages) and name not in KEPT_IN_FIREFOX:
        setattr(FileInFirefox, name, None)


@unittest.skipIf(lacking("chromium"), lacking("chromium"))
class WithoutWaitingInChromium(WithoutWaiting, unittest.TestCase):
    browser = "chromium"


@unittest.skipIf(lacking("firefox"), lacking("firefox"))
class WithoutWaitingInFirefox(WithoutWaiting, unittest.TestCase):
    browser = "firefox"


class Whole(unittest.TestCase):
    """The text of the page."""

    def setUp(self) -> None:
        self.text = whole_page(stub_modules.TRAP, {"a.job": "</script><!-- \u00e9", "b.py": "no"})

    def test_it_loads_nothing(self) -> None:
        [policy] = re.findall('http-equiv="Content-Security-Policy" content="([^"]*)"', self.text)
        [style] = re.findall("<style>(.*?)</style>", self.text, re.S)
        [script] = re.findall('<script type="module">(.*?)</script>', self.text, re.S)
        expected = {
            "default-src": "'none'",
            "script-src": f"'sha256-{sha256(script)}' 'wasm-unsafe-eval'",
            "style-src": f"'sha256-{sha256(style)}'",
            "worker-src": "blob:",
            "img-src": "data:",
            "base-uri": "'none'",
            "form-action": "'none'",
        }
        self.assertEqual(policy, "; ".join(f"{kind} {sources}" for kind, sources in expected.items()))
        found = re.findall(r"""\b\w+://[^\s"'`<]*|\b(?:src|href)=[^\s>]*""", self.text)
        links = {source.replace("\\", "") for source in found}
        # Links to papers lead elsewhere, but only if you click them.
        addresses = {source for source in links if not source.startswith("https://doi.org/")}
        self.assertEqual(addresses, {"http://www.w3.org/2000/svg", 'href="data:,"'})
        self.assertNotIn("import ", script)

    def test_the_examples_and_the_program(self) -> None:
        self.assertIn('id="examples">{"a.job": "\\u003c/script>\\u003c!-- \\u00e9"}</script>', self.text)
        [program] = PROGRAM.findall(self.text)
        self.assertEqual(gzip.decompress(base64.b64decode(program)), stub_modules.TRAP)
        self.assertEqual(self.text, whole_page(stub_modules.TRAP, {"a.job": "</script><!-- \u00e9"}))

    def test_a_page_of_another_form(self) -> None:
        read = lambda path, _: "" if path.suffix in (".html", ".css") else path.read_bytes().decode()
        with mock.patch.object(Path, "read_text", read):
            self.assertRaisesRegex(ValueError, "^page.html needs ", whole_page, b"", {})


if __name__ == "__main__":
    unittest.main()
