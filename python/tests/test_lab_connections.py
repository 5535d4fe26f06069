"""Connections to the server of trlab-lab: those without the token cannot shut the owner out, and no request is misread."""
import contextlib
import errno
import http.client
import io
import os
import random
import signal
import socket
import socketserver
import stat
import subprocess
import sys
import tempfile
import unittest
from pathlib import Path
from unittest import mock

from tests.test_lab import EXAMPLES, TOP, Serving, first_line
from tests.waiting import LIMIT, first_of, holds
from trlab import Job, Nasch
from trlab.lab import Lab, page_of, server
from trlab.lab.__main__ import fragment, main

JAMS = (EXAMPLES / "jams.job").read_text()
# The first lines of a request, as `send` takes them; %s is the path after the token.
POST = "POST /{token}/%s HTTP/1.1\nHost: {address}\nOrigin: http://{address}\n"
NO_RULES = b'{"text": "", "chosen": {}, "values": {}}'


def is_closed(connection: socket.socket) -> bool:
    """Whether the server has closed a connection on which nothing has come."""
    connection.setblocking(False)
    try:
        return connection.recv(1) == b""
    except BlockingIOError:
        return False
    except ConnectionError:
        return True


class Unauthenticated(Serving):
    def silent(self, count: int) -> list[socket.socket]:
        """Connections that send nothing."""
        connections = []
        for _ in range(count):
            connections.append(socket.create_connection(("127.0.0.1", self.lab.server_port), timeout=LIMIT))
            self.addCleanup(connections[-1].close)
        return connections

    def test_silent_connections_are_bounded(self) -> None:
        unauthenticated = self.lab.unauthenticated
        connections = self.silent(unauthenticated.maximum + 40)
        self.assertEqual(self.ask().status, 200)
        self.assertTrue(holds(lambda: sum(map(is_closed, connections)) >= 40))
        # The newest ones are still there, and those that have shown the token do not count. The request above may have come
        # as one connection more, for which connection 40 had to go, too.
        self.assertFalse(is_closed(connections[-1]))
        self.assertTrue(holds(lambda: len(unauthenticated.waiting) == unauthenticated.maximum - is_closed(connections[40])))

    def test_a_page_keeps_its_connection(self) -> None:
        port = self.lab.server_port
        connection = http.client.HTTPConnection("127.0.0.1", port, timeout=LIMIT)
        self.addCleanup(connection.close)

        def style_sheet() -> bytes:
            connection.request("GET", f"/{self.lab.token}/page.css")
            return connection.getresponse().read()

        before, socket_before = style_sheet(), connection.sock
        self.silent(self.lab.unauthenticated.maximum + 40)
        self.assertTrue(holds(lambda: len(self.lab.unauthenticated.waiting) == self.lab.unauthenticated.maximum))
        self.assertEqual(style_sheet(), before)
        self.assertIs(connection.sock, socket_before)

    def test_a_first_request_does_not_wait_for_long(self) -> None:
        with mock.patch.object(server.PageHandler, "timeout", 0.1):
            [silent] = self.silent(1)
            self.assertTrue(holds(lambda: is_closed(silent)))
        self.assertLess(server.FIRST_REQUEST_TIMEOUT, server.REQUEST_TIMEOUT)

    def test_without_descriptors_a_stranger_goes_and_the_server_rests(self) -> None:
        silent = self.silent(3)
        self.assertTrue(holds(lambda: len(self.lab.unauthenticated.waiting) == 3))
        pauses: list[float] = []
        no_descriptors = OSError(errno.EMFILE, "Too many open files")
        with mock.patch.object(socketserver.TCPServer, "get_request", side_effect=no_descriptors):
            with mock.patch("time.sleep", pauses.append):
                self.assertRaises(OSError, self.lab.get_request)
        self.assertEqual(pauses, [server.RETRY_PAUSE])
        self.assertTrue(holds(lambda: is_closed(silent[0])))
        self.assertFalse(is_closed(silent[2]))

    def test_a_queue_for_many_connections(self) -> None:
        self.assertGreaterEqual(Lab.request_queue_size, 100)


class Requests(Serving):
    def send(self, head: str, body: bytes = b"", cut: bool = False) -> str:
        """The whole response to a request. {address} and {token} in `head`, its first lines, are those of the server. `cut`
        ends the sending side after the body."""
        head = head.format(address=f"127.0.0.1:{self.lab.server_port}", token=self.lab.token)
        with socket.create_connection(("127.0.0.1", self.lab.server_port), timeout=LIMIT) as connection:
            connection.sendall(head.replace("\n", "\r\n").encode() + b"\r\n" + body)
            if cut:
                connection.shutdown(socket.SHUT_WR)
            answer = b""
            while piece := connection.recv(65536):
                answer += piece
        return answer.decode()

    def test_a_close_after_a_run_is_heard(self) -> None:
        head = POST + "Connection: close\nContent-Length: %d\n"
        never = 10 * LIMIT
        for name in "run", "series", "explain":
            # `send` returns when the server closes the connection, which must not wait for one of these limits.
            with mock.patch.multiple(server, REQUEST_TIMEOUT=never, FIRST_REQUEST_TIMEOUT=never):
                answer = self.send(head % (name, len(JAMS)), JAMS.encode())
            self.assertIn("\r\nConnection: close\r\n", answer)
            self.assertTrue(answer.endswith("\r\n0\r\n\r\n"), name)

    def test_a_stream_needs_chunks(self) -> None:
        head = POST.replace("HTTP/1.1", "HTTP/1.0") + "Content-Length: %d\n"
        answer = self.send(head % ("run", len(JAMS)), JAMS.encode())
        self.assertTrue(answer.startswith("HTTP/1.1 505 "), answer)
        self.assertNotIn("chunked", answer)
        self.assertTrue(self.send(head % ("rules", len(NO_RULES)), NO_RULES).startswith("HTTP/1.1 200 "))

    def test_one_host_one_length(self) -> None:
        get = "GET /{token}/ HTTP/1.1\nHost: {address}\n%sConnection: close\n"
        self.assertTrue(self.send(get % "").startswith("HTTP/1.1 200 "))
        for other in "Host: {address}\n", "Host: evil.example\n":
            self.assertTrue(self.send(get % other).startswith("HTTP/1.1 403 "), other)
        post = POST % "explain/check" + "Connection: close\nContent-Length: 1\n"
        self.assertTrue(self.send(post, b"x").startswith("HTTP/1.1 200 "))
        for other in "Content-Length: 1\n", "Content-Length: 2\n", "Transfer-Encoding: chunked\n":
            self.assertTrue(self.send(post + other, b"x").startswith("HTTP/1.1 411 "), other)

    def test_a_cut_input_is_refused(self) -> None:
        head = POST + "Content-Length: %d\n"
        for name in "run", "explain/run", "rules":
            answer = self.send(head % (name, len(JAMS) + 1), JAMS.encode(), cut=True)
            self.assertTrue(answer.startswith("HTTP/1.1 400 "), name)
            self.assertIn(f"The input is cut: {len(JAMS)} of {len(JAMS) + 1} bytes", answer)

    def test_browsers_leave_out_port_80(self) -> None:
        self.assertEqual(server.hosts_at(80), {"127.0.0.1:80", "localhost:80", "127.0.0.1", "localhost"})
        self.assertEqual(server.hosts_at(8080), {"127.0.0.1:8080", "localhost:8080"})
        self.lab.hosts = server.hosts_at(80)
        for host in "127.0.0.1", "localhost":
            self.assertEqual(self.ask("explain/check", b"", host=host, origin=f"http://{host}").status, 200)
        self.assertEqual(self.ask(host="evil.example", origin="http://evil.example").status, 403)


class Opening(unittest.TestCase):
    """The command, with a browser that is a script."""

    def start(self, folder: str, browser: str, *words: str) -> subprocess.Popen[str]:
        """The running command. Its standard error is in the file `errors` of the folder."""
        folders = {"TMPDIR": folder, "HOME": folder, "PYTHONPATH": str(TOP / "python")}
        environment = {**os.environ, **folders, "PYTHONDONTWRITEBYTECODE": "1", "BROWSER": browser}
        with open(Path(folder) / "errors", "w") as errors:
            running = subprocess.Popen(
                [sys.executable, "-m", "trlab.lab", *words], stdout=subprocess.PIPE, stderr=errors, text=True,
                env=environment, cwd=folder, start_new_session=True,
            )
        self.addCleanup(running.communicate)
        self.addCleanup(self.kill, running.pid)
        return running

    def kill(self, group: int) -> None:
        """End the command and its browser."""
        with contextlib.suppress(ProcessLookupError):
            os.killpg(group, signal.SIGKILL)

    def browser(self, folder: str) -> str:
        """A browser that records the words of its command line in the file `opened` of the folder, and stays open."""
        script = Path(folder) / "browser"
        # The file is moved, so that it has its whole text as soon as it exists.
        script.write_text(f"""#!/bin/sh
printf '%s\\n' "$@" > '{folder}/new'
mv '{folder}/new' '{folder}/opened'
exec sleep 1000 > /dev/null
""")
        script.chmod(0o700)
        return str(script)

    def opened(self, folder: str) -> list[str]:
        """The words of the browser's command line, once it has started."""
        path = Path(folder) / "opened"
        self.assertTrue(holds(path.exists))
        return path.read_text().splitlines()

    def end(self, running: subprocess.Popen[str]) -> None:
        """End the command by a signal. It must end without an error."""
        running.send_signal(signal.SIGTERM)
        self.assertEqual(running.wait(LIMIT), 0)

    def test_the_token_is_no_argument(self) -> None:
        for words in (), (str(EXAMPLES / "jams.job"),):
            with tempfile.TemporaryDirectory() as folder:
                running = self.start(folder, self.browser(folder), *words)
                address = first_line(running).strip()
                [link] = self.opened(folder)
                token = address.split("/")[3]
                self.assertNotIn(token, link)
                path = Path(link.replace("file://", "", 1))
                self.assertEqual(stat.S_IMODE(path.stat().st_mode), 0o600)
                self.assertIn(f'content="0; url={address}"', path.read_text())
                # The server responds although the browser does not return.
                connection = http.client.HTTPConnection(address.split("/")[2], timeout=LIMIT)
                connection.request("GET", f"/{token}/")
                self.assertEqual(connection.getresponse().status, 200)
                connection.close()
                for command_line in Path("/proc").glob("[0-9]*/cmdline"):
                    with contextlib.suppress(OSError):  # a process that has ended
                        self.assertNotIn(token.encode(), command_line.read_bytes())
                self.end(running)
                self.assertFalse(path.exists())
                self.assertEqual((Path(folder) / "errors").read_text(), "")

    def test_a_large_job_is_opened(self) -> None:
        characters, draw = ".0123456789abcdefghijklmnopqrstuvwxyz", random.Random(1)
        lanes = "".join(f"lane {''.join(draw.choices(characters, k=100000))}\n" for _ in range(2))
        job = f"road 1\nkey {'0' * 64}\nlimit 35\n{lanes}rule nasch 0\nsteps 10\n"
        with tempfile.TemporaryDirectory() as folder:
            (Path(folder) / "large.job").write_text(job)
            running = self.start(folder, self.browser(folder), "large.job")
            address = first_line(running).strip()
            self.assertGreater(len(address), 2**17)  # no argument of a process is longer
            [link] = self.opened(folder)
            self.assertIn(address, Path(link.replace("file://", "", 1)).read_text())
            self.end(running)

    def test_without_a_browser_there_is_a_message(self) -> None:
        with tempfile.TemporaryDirectory() as folder:
            running = self.start(folder, f"{folder}/missing")
            address = first_line(running).strip()
            message = first_of(lambda: (Path(folder) / "errors").read_text() or None)
            self.assertEqual(message, f"trlab-lab: no browser could be opened. Open this address in one: {address}\n")
            self.end(running)

    def test_an_input_that_does_not_end(self) -> None:
        self.assertRaisesRegex(ValueError, "^/dev/zero is too long: at most 4194304 bytes", fragment, "/dev/zero")

    def test_a_damaged_link(self) -> None:
        for link in "x#job=\x1b[31m", "#job=", "#job=abc#job=abc", "#job=a b", "#job=%%%":
            with contextlib.redirect_stdout(io.StringIO()) as output, self.assertRaises(SystemExit) as raised:
                main([link])
            message = str(raised.exception.code)
            self.assertIn("the link is damaged", message)
            self.assertNotIn("\x1b", message + output.getvalue())

    def test_a_job_that_no_address_can_hold(self) -> None:
        with tempfile.TemporaryDirectory() as folder:
            path = Path(folder) / "noise"
            path.write_bytes(os.urandom(1000000))
            self.assertRaisesRegex(ValueError, "too long for an address: run trlab-lab without it", fragment, str(path))


class Exported(unittest.TestCase):
    def test_a_limit_is_a_number(self) -> None:
        snapshots = Job(limit=5, length=50, density=0.2, rule=Nasch(0.25), steps=20).run()
        for limit in "</script><script>alert(1)</script>", 0, 36, True, 2.5, 4:
            self.assertRaises(ValueError, snapshots.html, limit=limit)
        self.assertIn('"limit": 35', page_of(snapshots, 35))


if __name__ == "__main__":
    unittest.main()
