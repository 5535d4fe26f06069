"""Pages and the processes that the server runs for them, and pages of other origins."""
import http.server
import os
import signal
import threading
import unittest

from tests.browsers import missing
from tests.lab_pages import OnPage
from tests.waiting import first_of


class Processes(OnPage):
    """The tests, in one browser."""

    def test_an_interrupted_run(self) -> None:
        self.page.set("length", 100000)
        self.wait_until(lambda: self.page.js("return lab.player.film.length") == 100000 and self.page.step() >= 0)
        os.kill(first_of(self.only_run).pid, signal.SIGKILL)
        self.wait_until(lambda: self.page.text("fault") != "")
        self.page.set("length", 1000)
        self.wait_until(lambda: self.page.text("fault") == "" and self.page.step() > 2)
        self.page.get("about:blank")
        self.page.errors()  # the browser reports the cut stream too, at some time

    def test_two_pages(self) -> None:
        self.page.set("stepcount", 500000)
        first, _ = self.page.open()
        self.page.get(self.lab.address)
        self.wait_until(lambda: self.page.js("return window.lab?.player.step > 5"))
        self.page.set("stepcount", 500000)
        self.wait_until(lambda: self.page.step() > 5 and len(self.lab.children) >= 1)
        self.page.leave(first)
        before = self.page.step()
        self.wait_until(lambda: self.page.step() > before)
        self.wait_until(lambda: len(self.lab.children) <= 1)

    def test_reloading(self) -> None:
        self.page.set("stepcount", 500000)
        self.wait_for_line("\nsteps 500000\n")
        self.wait_until(lambda: not self.page.js("return lab.isWriting") and self.page.step() > 2)
        child = first_of(self.only_run)
        self.page.refresh()
        self.wait_until(lambda: self.page.js("return window.lab?.player.step > 2"))
        self.wait_until(lambda: child.returncode is not None)
        self.page.get("about:blank")
        self.wait_until(lambda: not self.lab.children)

    def test_another_origin(self) -> None:
        with http.server.ThreadingHTTPServer(("127.0.0.1", 0), Empty) as other:
            thread = threading.Thread(target=other.serve_forever, kwargs={"poll_interval": 0.05})
            thread.start()
            try:
                self.page.get(f"http://127.0.0.1:{other.server_port}/")
                for mode in "cors", "no-cors":
                    answer = self.page.later(
                        "return await fetch(words[0] + 'run', {method: 'POST', mode: words[1], body: words[2]})"
                        ".then(it => it.type + it.status, () => 'failed')", self.lab.address, mode, "road 1\n")
                    self.assertIn(answer, {"failed", "opaque0"})
                framed = self.page.later(
                    "const frame = document.createElement('iframe'); frame.src = words[0]; document.body.append(frame);"
                    "await new Promise(go => { frame.onload = go; });"
                    "try { return String(frame.contentWindow.lab); } catch { return 'closed'; }", self.lab.address)
                self.assertIn(framed, {"closed", "undefined"})
                self.wait_until(lambda: not self.lab.children)  # those of the page before
            finally:
                other.shutdown()
                thread.join()
                self.page.get("about:blank")
                self.page.errors()  # the refusals


class Empty(http.server.BaseHTTPRequestHandler):
    """A page of another origin."""

    def do_GET(self) -> None:
        self.send_response(200)
        self.send_header("Content-Type", "text/html")
        self.end_headers()
        self.wfile.write(b"<!doctype html><link rel=icon href='data:,'><body></body>")

    def log_message(self, *_: object) -> None:
        pass


@unittest.skipIf(missing("chromium"), missing("chromium"))
class InChromium(Processes, unittest.TestCase):
    browser = "chromium"


@unittest.skipIf(missing("firefox"), missing("firefox"))
class InFirefox(Processes, unittest.TestCase):
    browser = "firefox"


if __name__ == "__main__":
    unittest.main()
