"""The server of trlab-lab: which requests it accepts, its streams, and that no process outlives its page."""
import base64
import contextlib
import gzip
import hashlib
import http.client
import io
import json
import os
import re
import signal
import socket
import subprocess
import sys
import tempfile
import threading
import unittest
import zlib
from collections.abc import Mapping
from pathlib import Path
from typing import Any, Optional, Union
from unittest import mock

from tests.waiting import LIMIT, holds
from trlab import Job, Nasch, Snapshot, Snapshots, RejectedInputError
from trlab.lab import Lab, page_of, server
from trlab.lab.__main__ import fragment, main
from trlab.lab.export import exported
from trlab.lab.scripts import HERE
from trlab._rules.functions import rules_in
from trlab._runs.calls import ask

TOP = Path(__file__).resolve().parents[2]
EXAMPLES = TOP / "examples"
# A run whose output no test reads to its end.
LONG = f"road 1\nkey {64 * '0'}\nlimit 5\nlane 0{999 * '.'}\nrule nasch 0\nsteps 500000\n"
# A sweep that computes for long before it prints its first line.
SILENT = f"""sweep 1
key {64 * '0'}
limit 5
length 100000
lanes 1
rule nasch 0
warm 0
measure 5000
""" + 100 * "cars 50000\n"


def children(process: int) -> list[str]:
    """The numbers of the processes that a process has started, with any of its threads."""
    threads = Path(f"/proc/{process}/task").iterdir()
    return [child for thread in threads for child in (thread / "children").read_text().split()]


def state(process: int) -> str:
    """The state of a process, for example R if it runs and S if it sleeps."""
    after_the_name = Path(f"/proc/{process}/stat").read_text().rpartition(")")[2]
    return after_the_name.split()[0]


def first_line(process: subprocess.Popen[str]) -> str:
    """The first line that a process writes."""
    assert process.stdout is not None
    return process.stdout.readline()


def errors_of(process: subprocess.Popen[str]) -> str:
    """All that a process writes on standard error."""
    assert process.stderr is not None
    return process.stderr.read()


def sha256(text: str) -> str:
    """The SHA-256 of a text in base 64, as a Content-Security-Policy has it."""
    return base64.b64encode(hashlib.sha256(text.encode()).digest()).decode()


class Response:
    """A response of the server, and its connection."""

    def __init__(self, connection: http.client.HTTPConnection) -> None:
        self.connection, self.response = connection, connection.getresponse()
        self.status, self.headers, self.read = self.response.status, self.response.headers, self.response.read

    def leave(self) -> None:
        """Close the connection, like a user who closes the page."""
        self.response.close()
        self.connection.close()


class Serving(unittest.TestCase):
    def setUp(self) -> None:
        self.lab = Lab()
        self.thread = threading.Thread(target=self.lab.serve_forever, kwargs={"poll_interval": 0.02})
        self.thread.start()
        self.addCleanup(self.thread.join)
        self.addCleanup(self.lab.close)
        self.addCleanup(self.lab.shutdown)

    def ask(
        self, name: str = "", body: Union[str, bytes, None] = None, method: Optional[str] = None,
        token: Optional[str] = None, origin: Union[str, bool, None] = True, host: Optional[str] = None,
    ) -> Response:
        """The response to a request. A request with a body has an Origin: that of the server's page, the given one, or none
        if `origin` is None."""
        server_address = f"127.0.0.1:{self.lab.server_port}"
        connection = http.client.HTTPConnection(server_address, timeout=LIMIT)
        headers = {"Host": host or server_address}
        if origin is True and body is not None:
            headers["Origin"] = f"http://{server_address}"
        elif isinstance(origin, str):
            headers["Origin"] = origin
        path = f"/{self.lab.token if token is None else token}/{name}"
        connection.request(method or ("GET" if body is None else "POST"), path, body, headers)
        response = Response(connection)
        self.addCleanup(response.leave)
        return response

    def text(self, name: str, body: Union[str, bytes]) -> str:
        """The text of the response to a request that the server accepts."""
        response = self.ask(name, body)
        self.assertEqual(response.status, 200)
        return response.read().decode()


class Pages(Serving):
    def test_the_page_and_its_files(self) -> None:
        page = self.ask().read().decode()
        self.assertIn("<!doctype html>", page)
        for name, (file, kind) in server.FILES.items():
            response = self.ask(name)
            self.assertEqual((response.status, response.headers["Content-Type"]), (200, f"{kind}; charset=utf-8"))
            self.assertEqual(response.read(), (HERE / file).read_bytes())
            policy = response.headers["Content-Security-Policy"]
            self.assertIn("default-src 'none'; script-src 'self'; style-src 'self'; connect-src 'self'", policy)
            self.assertNotIn("unsafe", policy)

    def test_no_file_comes_from_elsewhere(self) -> None:
        for file in HERE.glob("*.*"):
            if file.suffix in {".html", ".css", ".js"}:
                addresses = set(re.findall(r"https?://[\w.]+[^\s\"'`]*", file.read_text())) - {"http://www.w3.org/2000/svg"}
                # Links to papers lead elsewhere, but only if you click them.
                loaded = [address for address in addresses if not address.startswith("https://doi.org/")]
                self.assertEqual(loaded, [], file.name)

    def test_the_examples(self) -> None:
        suffixes = {".job", ".sweep", ".rule", ".py"}
        expected = {path.name: path.read_text() for path in EXAMPLES.iterdir() if path.suffix in suffixes}
        self.assertEqual(server.examples(), expected)
        self.assertEqual(self.ask("examples").status, 200)

    def test_no_other_path(self) -> None:
        for name in "nothing", "../server.py", "%2e%2e/server.py", "server.py", "page.html", "run":
            self.assertEqual(self.ask(name).status, 404, name)
        for name in "", "page.css", "help", "--help", "check", "explain/cause", "run/--workers":
            self.assertEqual(self.ask(name, b"").status, 404, name)


class Answers(Serving):
    def test_every_example(self) -> None:
        for name, text in server.examples().items():
            if name.endswith(".py"):
                continue
            kind = {"job": "run", "sweep": "sweep", "rule": "check"}[name.rpartition(".")[2]]
            self.assertEqual(self.text(f"explain/{kind}", text), ask(["explain", "--json", kind], text), name)
            if kind == "check":
                continue
            response = self.text(kind, text)
            output = "".join(line for line in response.splitlines(True) if not line.startswith("trlab: "))
            self.assertEqual(output, ask([kind], text), name)
            if kind == "run":
                self.assertEqual(self.text("explain", text), ask(["explain", "run"], text), name)
                self.assertEqual(self.text("series", text), ask(["series"], text), name)
            self.assertEqual("trlab: 100 % (" in response, kind == "sweep")  # only sweeps report progress

    def test_a_part_of_a_run(self) -> None:
        text = (EXAMPLES / "overtaking.job").read_text()
        whole = ask(["run"], text)
        for skip in 0, 1, 500, len(whole) - 1, len(whole), len(whole) + 5:
            self.assertEqual(self.text(f"run?skip={skip}", text), whole[skip:])
        for not_a_number in "", "-1", "1e3", "9" * 16, "1&skip=2":
            self.assertEqual(self.text(f"run?skip={not_a_number}", text), whole)

    def test_a_rejected_input(self) -> None:
        self.assertEqual(self.text("run", "road 2\n"), "fault line 1 cause 1\n")
        self.assertIn("fault line 1 cause 1\n", self.text("explain", "road 2\n"))
        self.assertEqual(json.loads(self.text("explain/run", "road 2\n"))["answer"], "fault line 1 cause 1")


class Rules(Serving):
    """The rules of the Python editor."""

    def rules(self, text: str, chosen: Mapping[str, str] = {}, values: Mapping[str, object] = {}) -> Any:
        """The server's answer about a file of rules, in which the user has chosen rules and values of their parameters."""
        return json.loads(self.text("rules", json.dumps({"text": text, "chosen": chosen, "values": values})))

    def test_programs_and_parameters(self) -> None:
        text = (EXAMPLES / "overtake.py").read_text()
        answer = self.rules(text, values={"drive": {"p": 0.5, "gone": 1}})
        self.assertEqual(answer["names"], {"motion": ["drive"], "change": ["overtake"]})
        self.assertEqual(answer["motion"], rules_in(text)["drive"](p=0.5))
        self.assertEqual(answer["change"], rules_in(text)["overtake"]())
        self.assertEqual(answer["budgets"]["drive"], rules_in(text)["drive"]().budget)
        fields = "rule", "name", "value", "most", "step"
        sliders = [tuple(slider[field] for field in fields) for slider in answer["parameters"]]
        expected = [("drive", "p", 0.5, 1, 0.01), ("overtake", "p", 0.5, 1, 0.01), ("overtake", "ahead", 2, 10, 1)]
        self.assertEqual(sliders, expected)

    def test_a_choice_among_rules(self) -> None:
        text = (EXAMPLES / "published_rules.py").read_text()
        self.assertEqual(self.rules(text)["motion"], rules_in(text)["nasch"]())
        answer = self.rules(text, {"motion": "comfortable", "change": "gone"})
        self.assertEqual(answer["motion"], rules_in(text)["comfortable"]())
        self.assertEqual(answer["change"], rules_in(text)["symmetric"]())

    def test_errors_have_their_line(self) -> None:
        text = "@motion\ndef f(car, g):\n    return car.gap\n"
        self.assertEqual(self.rules(text)["line"], 0)
        self.assertIn("missing a required argument", self.rules(text)["message"])
        answer = self.rules(text, values={"f": {"g": 1}})
        self.assertEqual(answer["line"], 3)
        self.assertIn("more than the limit", answer["message"])
        self.assertEqual(self.rules("def f(:")["line"], 1)
        self.assertEqual(self.rules("import os")["names"], {"motion": [], "change": []})
        # The text is read, and not run.
        self.assertEqual(self.rules("import os\nos.abort()\n" + text, values={"f": {"g": 1}})["line"], 5)

    def test_requests_of_another_form(self) -> None:
        for body in b"{", b"[]", b"\xff", b"null", b'{"text": 1}', b"[" * 100000:
            self.assertEqual(self.ask("rules", body).status, 400, body[:9])


class Refusals(Serving):
    def test_other_pages(self) -> None:
        port = self.lab.server_port
        others = "http://evil.example", "http://127.0.0.1", f"https://127.0.0.1:{port}", f"http://localhost:{port}"
        for origin in None, "null", *others:
            response = self.ask("explain/check", b"motion\ngo r0\n", origin=origin)
            self.assertEqual(response.status, 403, origin)
            self.assertNotIn(b"fault", response.read())  # the program has not run
        self.assertEqual(self.ask(origin="http://evil.example").status, 403)
        for host in "evil.example", f"evil.example:{port}", "127.0.0.1", f"127.0.0.1.evil.example:{port}":
            self.assertEqual(self.ask(host=host).status, 403, host)
        local = f"localhost:{port}"
        self.assertEqual(self.ask("explain/check", b"", host=local, origin=f"http://{local}").status, 200)

    def test_other_tokens(self) -> None:
        good = self.lab.token
        for token in "", "x", good[:-1], good + "x", good.swapcase(), "%" + good, good * 1000:
            with self.subTest(token=token[:40]):
                self.assertEqual(self.ask(token=token).status, 403)
        self.assertGreaterEqual(len(good), 32)

    def test_a_token_that_is_not_ascii(self) -> None:
        # http.client rejects such a path, so that the request is written by hand.
        request = b"GET /" + 32 * b"\xe9" + b"/ HTTP/1.1\r\nHost: 127.0.0.1:%d\r\n\r\n" % self.lab.server_port
        with socket.create_connection(("127.0.0.1", self.lab.server_port), timeout=LIMIT) as connection:
            connection.sendall(request)
            status_line = connection.makefile("rb").readline()
        self.assertTrue(status_line.startswith(b"HTTP/1.1 403 "), status_line)

    def test_each_server_has_its_own_token(self) -> None:
        with contextlib.closing(Lab()) as other:
            self.assertNotEqual(self.lab.token, other.token)
            self.assertNotEqual(self.lab.address, other.address)

    def test_other_methods(self) -> None:
        for method in "PUT", "DELETE", "OPTIONS", "TRACE":
            response = self.ask(method=method)
            self.assertEqual((response.status, response.headers["Connection"]), (501, "close"))
            self.assertIsNone(response.headers["Access-Control-Allow-Origin"])

    def test_long_inputs(self) -> None:
        longest = json.loads(self.text("explain/check", b"a" * server.MAX_BYTES))
        self.assertEqual(longest["answer"], "fault line 1 cause 1")
        for length, status in ("4194305", 413), ("9" * 18, 413), ("9" * 30, 411), ("-1", 411), ("x", 411), (None, 411):
            connection = http.client.HTTPConnection("127.0.0.1", self.lab.server_port, timeout=LIMIT)
            connection.putrequest("POST", f"/{self.lab.token}/explain")  # the input itself is never sent
            connection.putheader("Origin", f"http://127.0.0.1:{self.lab.server_port}")
            if length:
                connection.putheader("Content-Length", length)
            connection.endheaders()
            self.assertEqual(connection.getresponse().status, status, length)
            connection.close()


class Processes(Serving):
    def wait_for_running(self, count: int, message: str = "") -> None:
        """Wait until this number of processes runs for the server."""
        self.assertTrue(holds(lambda: len(self.lab.children) == count), message)

    def test_one_run_per_processor(self) -> None:
        processors = len(os.sched_getaffinity(0))
        runs = [self.ask("run", LONG) for _ in range(processors)]
        self.wait_for_running(processors)
        with mock.patch.object(server, "SLOT_TIMEOUT", 0.1):
            response = self.ask("run", LONG)
        self.assertEqual(response.status, 503)
        self.assertIn(b"Every processor is in use", response.read())
        self.assertEqual(self.ask("explain/run", LONG).status, 200)
        runs[0].leave()
        self.wait_for_running(processors - 1)
        with mock.patch.object(server, "SLOT_TIMEOUT", LIMIT):  # the slot is free a little later than the process ends
            self.assertEqual(self.ask("run", LONG).status, 200)

    def test_a_run_ends_with_its_page(self) -> None:
        for name, text in ("run", LONG), ("sweep", SILENT), ("series", LONG):
            response = self.ask(name, text)
            self.wait_for_running(1, name)
            [child] = self.lab.children
            if name != "sweep":  # which is silent for long
                response.read(100)
                # The output fills the sockets, and the program sleeps.
                self.assertTrue(holds(lambda: state(child.pid) == "S"), name)
            response.leave()
            self.wait_for_running(0, name)
            self.assertIsNotNone(child.returncode)

    def test_a_cut_run_is_not_a_whole_one(self) -> None:
        response = self.ask("run", LONG)
        self.wait_for_running(1)
        [child] = self.lab.children
        child.kill()
        self.assertRaises(http.client.IncompleteRead, response.read)

    def test_closing_ends_every_run(self) -> None:
        self.ask("run", LONG)
        has_second_processor = len(os.sched_getaffinity(0)) > 1
        if has_second_processor:
            self.ask("sweep", SILENT)
        self.wait_for_running(2 if has_second_processor else 1)
        processes = list(self.lab.children)
        self.lab.shutdown()
        self.lab.close()
        self.assertTrue(all(process.returncode is not None for process in processes))
        self.assertRaises(ConnectionAbortedError, self.lab.start_process, ["run"], b"")


class Command(unittest.TestCase):
    def start(self, *words: str, folder: str) -> subprocess.Popen[str]:
        """The running command, which can leave files only in a folder."""
        folders = {"TMPDIR": folder, "HOME": folder, "PYTHONPATH": str(TOP / "python")}
        environment = {**os.environ, **folders, "PYTHONDONTWRITEBYTECODE": "1"}
        running = subprocess.Popen(
            [sys.executable, "-m", "trlab.lab", "--no-browser", *words], stdout=subprocess.PIPE, stderr=subprocess.PIPE,
            text=True, env=environment, cwd=folder, start_new_session=True,
            # A shell that started these tests in the background has them ignore SIGINT.
            preexec_fn=lambda: signal.signal(signal.SIGINT, signal.SIG_DFL),
        )
        self.addCleanup(running.communicate)
        self.addCleanup(running.kill)
        return running

    def test_it_ends_with_no_process_left_and_no_file(self) -> None:
        for ending in signal.SIGINT, signal.SIGTERM, signal.SIGHUP, signal.SIGQUIT:
            with tempfile.TemporaryDirectory() as folder, self.subTest(ending=ending.name):
                running = self.start(folder=folder)
                line = first_line(running)
                [(address, path)] = re.findall(r"^http://(127\.0\.0\.1:\d+)(/[\w-]{32}/)\n$", line)
                connection = http.client.HTTPConnection(address, timeout=LIMIT)
                connection.request("POST", f"{path}run", LONG, {"Origin": f"http://{address}"})
                self.assertEqual(connection.getresponse().status, 200)
                self.assertTrue(holds(lambda: len(children(running.pid)) == 1))
                [child] = children(running.pid)
                running.send_signal(ending)
                self.assertEqual(running.wait(LIMIT), 0)
                self.assertEqual(errors_of(running), "")
                self.assertTrue(holds(lambda: not Path(f"/proc/{child}").exists()))
                self.assertEqual(os.listdir(folder), [])
                connection.close()

    def test_a_port_in_use(self) -> None:
        with contextlib.closing(Lab()) as lab, tempfile.TemporaryDirectory() as folder:
            running = self.start("--port", str(lab.server_port), folder=folder)
            self.assertEqual(running.wait(LIMIT), 1)
            reason = f"cannot listen on port {lab.server_port}: Address already in use"
            self.assertEqual(errors_of(running), f"trlab-lab: {reason}; choose another with --port\n")

    def test_it_opens_a_job(self) -> None:
        path = EXAMPLES / "jams.job"
        link = fragment(str(path))
        packed = link[len("#job=") :]
        padding = "=" * (-len(packed) % 4)
        text = zlib.decompress(base64.urlsafe_b64decode(packed + padding), wbits=-15)  # negative: without a header
        self.assertEqual(text, path.read_bytes())
        self.assertEqual(fragment("http://127.0.0.1:1/x/" + link), link)
        with mock.patch.object(Lab, "serve_forever", side_effect=KeyboardInterrupt):
            with contextlib.redirect_stdout(io.StringIO()) as output, mock.patch("signal.signal"):
                main([str(path), "--no-browser"])
        self.assertTrue(output.getvalue().endswith(f"/{link}\n"))

    def test_bad_words(self) -> None:
        for words in ["--port", "70000"], ["nothing.job"], ["--export", "x", "y"]:
            with contextlib.redirect_stderr(io.StringIO()), self.assertRaises(SystemExit) as raised:
                main(words)
            self.assertNotIn(raised.exception.code, (0, None))


class ExportedPage:
    """An exported page: its snapshots, its script and style, and the sums that its policy has of these."""

    def __init__(self, page: str) -> None:
        _, run, self.script = re.findall(r"<script[^>]*>(.*?)</script>", page, re.S)
        self.run = gzip.decompress(base64.b64decode(run)).decode()
        [self.style] = re.findall("<style>(.*?)</style>", page, re.S)
        self.sums = re.findall(r"'sha256-([^']+)'", page)


class Exports(unittest.TestCase):
    def test_the_snapshots_are_those_of_the_run(self) -> None:
        for path in sorted(EXAMPLES.glob("*.job")):
            text = path.read_text()
            with tempfile.TemporaryDirectory() as folder:
                page = Path(folder) / "page.html"
                with mock.patch("sys.stdin", io.TextIOWrapper(io.BytesIO(text.encode()))):
                    main(["--export", str(page)])
                film = ExportedPage(page.read_text())
            self.assertEqual(film.run, ask(["run"], text), path.name)
            self.assertEqual(film.sums, [sha256(film.script), sha256(film.style)])
            self.assertIsNone(re.search(r"^(import|export)\b", film.script, re.M))

    def test_pictures(self) -> None:
        job = Job(limit=5, length=50, density=0.2, rule=Nasch(0.25), steps=20)
        page = job.run().html(title="A <ring>")
        self.assertEqual(ExportedPage(page).run, ask(["run"], job.text()))
        self.assertIn("<title>A &lt;ring&gt;</title>", page)
        self.assertIn("10 cars on a ring of 50 cells, at most 5 cells per step", page_of(job.run(), 5))
        self.assertEqual(page, job.run().html(title="A <ring>"))

    def test_errors(self) -> None:
        job = Job(limit=5, length=50, density=0.2, rule=Nasch(0.25), steps=20)
        self.assertRaises(ValueError, Snapshots().html)
        self.assertRaises(ValueError, job.run()[5:].html)
        with mock.patch("trlab.lab.export.MAX_BYTES", 500):
            self.assertRaises(ValueError, job.run().html)
        self.assertRaises(RejectedInputError, exported, "road 2\n")
        self.assertIn("0 cars on two rings of 2 cells", page_of(Snapshots([Snapshot(0, ("..", ".."))])))


if __name__ == "__main__":
    unittest.main()
