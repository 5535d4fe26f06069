"""The server of trlab-lab: serve one page to this machine, and run trlab for it.

Each request that has an input starts one process of trlab, and its output is streamed to the page. If the page goes
away, the process ends. Nothing is kept, and the server writes nothing to disk."""
from __future__ import annotations

import errno
import json
import os
import re
import secrets
import selectors
import socket
import subprocess
import sys
import threading
import time
from http.server import BaseHTTPRequestHandler, ThreadingHTTPServer
from typing import Any, Optional

from .._runs.children import Child
from .._runs.location import find_program
from .._runs.signals import need_exit_statuses
from . import rules
from .export import film_page
from .scripts import HERE, imported_scripts
from .unauthenticated import UnauthenticatedConnections

MAX_BYTES = 4 * 1024 * 1024
"""The maximum size of an input, which is also that of trlab."""
CHUNK_BYTES = 65536
SLOT_TIMEOUT = 2.0
"""How long a run waits for a free processor, in seconds."""
FIRST_REQUEST_TIMEOUT, REQUEST_TIMEOUT = 10.0, 30.0
"""How long a request may pause while it is read, in seconds: the first one of a connection, and the later ones. A
stream has no limit, because a page may pause."""
RETRY_PAUSE = 0.1
"""How long the server rests, in seconds, if it has no descriptors for another connection."""

FILES = {
    "": ("page.html", "text/html"),
    "page.css": ("page.css", "text/css"),
    **{f"{name}.js": (f"{name}.js", "text/javascript") for name in imported_scripts("page")},
}
LONG_COMMANDS = {"run": ["run"], "series": ["series"], "sweep": ["sweep", "--progress"]}
"""Commands that may take long: at most one per processor runs at a time."""
SHORT_COMMANDS = {
    "explain": ["explain", "run"],
    **{f"explain/{kind}": ["explain", "--json", kind] for kind in ("run", "sweep", "check")},
}
RULES = "rules"
"""The request that Python handles, with short calls of the verifier: see `rules.answer`."""
HEADERS = {
    "Cache-Control": "no-store",
    "Content-Security-Policy": "default-src 'none'; script-src 'self'; style-src 'self'; connect-src 'self'; "
    "img-src 'self' data:; base-uri 'none'; form-action 'none'; frame-ancestors 'none'",
    "Cross-Origin-Opener-Policy": "same-origin",
    "Cross-Origin-Resource-Policy": "same-origin",
    "Referrer-Policy": "no-referrer",
    "X-Content-Type-Options": "nosniff",
}


def examples() -> dict[str, str]:
    """The example inputs by file name: those of the package, or of the checkout."""
    packed = HERE / "examples"
    folder = packed if packed.is_dir() else HERE.parents[2] / "examples"
    files = sorted(path for path in folder.glob("*") if path.suffix in {".job", ".sweep", ".rule", ".py"})
    return {path.name: path.read_text("utf-8") for path in files}


def hosts_at(port: int) -> set[str]:
    """The names that browsers use for this server. They leave out port 80."""
    names = {"127.0.0.1", "localhost"}
    return {f"{name}:{port}" for name in names} | (names if port == 80 else set())


class Lab(ThreadingHTTPServer):
    """The server on 127.0.0.1, at any free port if `port` is 0. `address` is the page's address."""

    daemon_threads = True
    request_queue_size = 128

    def __init__(self, port: int = 0) -> None:
        need_exit_statuses()
        self.program = find_program()
        self.unauthenticated = UnauthenticatedConnections()
        super().__init__(("127.0.0.1", port), PageHandler)
        self.token = secrets.token_urlsafe(24)
        self.hosts = hosts_at(self.server_port)
        processors = len(os.sched_getaffinity(0))
        self.long_slots = threading.BoundedSemaphore(processors)
        self.short_slots = threading.BoundedSemaphore(processors)
        self.lock, self.closing = threading.Lock(), False
        self.children: set[Child] = set()

    @property
    def address(self) -> str:
        return f"http://127.0.0.1:{self.server_port}/{self.token}/"

    def get_request(self) -> tuple[socket.socket, Any]:
        """The next connection. If there are no descriptors for it, a connection without the token has to go, and the
        server does not try in a loop."""
        try:
            return super().get_request()
        except OSError as error:
            if error.errno in (errno.EMFILE, errno.ENFILE, errno.ENOBUFS, errno.ENOMEM):
                self.unauthenticated.drop_oldest()
                time.sleep(RETRY_PAUSE)
            raise

    def process_request(self, request: Any, client_address: Any) -> None:
        """Read the request in a thread of its own."""
        self.unauthenticated.add(request)
        super().process_request(request, client_address)

    def shutdown_request(self, request: Any) -> None:
        """The connection is over."""
        self.unauthenticated.remove(request)
        super().shutdown_request(request)

    def start_process(self, words: list[str], text: bytes) -> Child:
        """A process of trlab that reads this input. Progress lines, if any, come before the output."""
        source = os.memfd_create("trlab-lab")
        try:
            with open(source, "wb", closefd=False) as file:
                file.write(text)
            os.lseek(source, 0, os.SEEK_SET)
            errors = subprocess.STDOUT if "--progress" in words else subprocess.DEVNULL
            with self.lock:
                if self.closing:
                    raise ConnectionAbortedError("the server is closing")
                child = Child([self.program, *words], stdin=source, stdout=subprocess.PIPE, stderr=errors)
                self.children.add(child)
                return child
        finally:
            os.close(source)

    def end_process(self, child: Child) -> None:
        """End a process, if it still runs."""
        child.kill()
        child.wait()
        if child.stdout:
            child.stdout.close()
        with self.lock:
            self.children.discard(child)

    def close(self) -> None:
        """Stop listening and end every process."""
        self.server_close()
        with self.lock:
            self.closing = True
            children = list(self.children)
        for child in children:
            child.kill()
            child.wait()

    def handle_error(self, request: Any, client_address: Any) -> None:
        """Report an error, unless the page has only gone away."""
        if not isinstance(sys.exc_info()[1], (ConnectionError, TimeoutError)):
            super().handle_error(request, client_address)


class PageHandler(BaseHTTPRequestHandler):
    """One connection of a browser."""

    protocol_version = "HTTP/1.1"
    server: Lab
    timeout = FIRST_REQUEST_TIMEOUT

    def do_GET(self) -> None:
        name = self.requested_name()
        if name == "examples":
            self.answer(200, json.dumps(examples()).encode(), "application/json")
        elif name == "film":
            self.answer(200, film_page().encode())
        elif name in FILES:
            file, kind = FILES[name]
            self.answer(200, (HERE / file).read_bytes(), kind)
        elif name is not None:
            self.answer(404, b"There is no such page.\n")

    def do_POST(self) -> None:
        name = self.requested_name()
        if name is None:
            return
        if name not in LONG_COMMANDS and name not in SHORT_COMMANDS and name != RULES:
            self.refuse(404, "There is no such command.")
            return
        text = self.body()
        if text is not None and name == RULES:
            try:
                self.answer(200, rules.answer(text))
            except ValueError as error:
                self.answer(400, f"{error}\n".encode())
        elif text is not None:
            self.run_command(name, text)

    def body(self) -> Optional[bytes]:
        """The input of the request; None if the request is refused, because it has no length, is too long or is cut."""
        lengths: list[str] = self.headers.get_all("Content-Length", [])
        has_length = len(lengths) == 1 and re.fullmatch("[0-9]{1,18}", lengths[0], re.ASCII)
        if not has_length or "Transfer-Encoding" in self.headers:
            self.refuse(411, "The request needs one Content-Length, and no Transfer-Encoding.")
            return None
        length = int(lengths[0])
        if length > MAX_BYTES:
            self.refuse(413, f"The input is too long: at most {MAX_BYTES} bytes are allowed.")
            return None
        text = self.rfile.read(length)
        if len(text) < length:
            self.refuse(400, f"The input is cut: {len(text)} of {length} bytes have come.")
            return None
        return text

    def refuse(self, status: int, message: str) -> None:
        self.close_connection = True
        self.answer(status, f"{message}\n".encode())

    def requested_name(self) -> Optional[str]:
        """The requested name, if the request comes from a page of this server; otherwise the request is refused."""
        token, slash, name = self.path[1:].partition("?")[0].partition("/")
        has_token = bool(slash) and secrets.compare_digest(token.encode(), self.server.token.encode())
        if has_token and self.is_of_own_page():
            self.server.unauthenticated.remove(self.connection)
            self.connection.settimeout(REQUEST_TIMEOUT)
            return name
        self.refuse(403, "This address is not valid. Use the one that trlab-lab printed.")
        return None

    def is_of_own_page(self) -> bool:
        """Whether the request names this server as its host, and does not come from a page of another one. A browser names the page's
        server as the origin, and may leave it out only for GET."""
        hosts: list[str] = self.headers.get_all("Host", [])
        if len(hosts) != 1 or hosts[0] not in self.server.hosts:
            return False
        origin = self.headers.get("Origin")
        may_have_no_origin = self.command != "POST"
        return origin == f"http://{hosts[0]}" or (origin is None and may_have_no_origin)

    def bytes_to_skip(self) -> int:
        """How many bytes of the output the page does not need: `?skip=N`."""
        match = re.search(r"\?skip=([0-9]{1,15})$", self.path, re.ASCII)
        return int(match[1]) if match else 0

    def run_command(self, name: str, text: bytes) -> None:
        """Stream the output of a command, as soon as a processor is free. Its chunks show whether it is whole."""
        if self.request_version != self.protocol_version:
            self.refuse(505, "This request needs HTTP/1.1.")
            return
        slots = self.server.long_slots if name in LONG_COMMANDS else self.server.short_slots
        if not slots.acquire(timeout=SLOT_TIMEOUT):
            self.answer(503, b"Every processor is in use by a run. Pause or close another page of trlab-lab.\n")
            return
        try:
            child = self.server.start_process(LONG_COMMANDS.get(name) or SHORT_COMMANDS[name], text)
            try:
                is_whole = self.stream(child, self.bytes_to_skip()) and child.exit_status() in (0, 1)
                # Without the last chunk the page knows that the output is cut.
                self.close_connection = self.close_connection or not is_whole
                if is_whole:
                    self.wfile.write(b"0\r\n\r\n")
            finally:
                self.server.end_process(child)
        finally:
            slots.release()

    def stream(self, child: Child, skip: int) -> bool:
        """Whether the page has the whole output. A page that sends or closes anything meanwhile has gone away."""
        self.connection.settimeout(None)
        self.begin(200, "text/plain", {"Transfer-Encoding": "chunked"})
        assert child.stdout is not None
        with selectors.DefaultSelector() as ready:
            ready.register(child.stdout, selectors.EVENT_READ)
            ready.register(self.connection, selectors.EVENT_READ)
            while True:
                if any(key.fileobj is self.connection for key, _ in ready.select()):
                    return False
                piece = os.read(child.stdout.fileno(), CHUNK_BYTES)
                if not piece:
                    self.connection.settimeout(REQUEST_TIMEOUT)
                    return True
                piece, skip = piece[skip:], max(0, skip - len(piece))
                if piece:
                    self.wfile.write(b"%x\r\n%b\r\n" % (len(piece), piece))

    def answer(self, status: int, body: bytes, kind: str = "text/plain") -> None:
        self.begin(status, kind, {"Content-Length": str(len(body))})
        self.wfile.write(body)

    def begin(self, status: int, kind: str, more: dict[str, str]) -> None:
        self.send_response(status)
        for name, value in {"Content-Type": f"{kind}; charset=utf-8", **HEADERS, **more}.items():
            self.send_header(name, value)
        if self.close_connection:
            self.send_header("Connection", "close")
        self.end_headers()

    def send_error(self, code: int, message: Optional[str] = None, explain: Optional[str] = None) -> None:
        """Respond to a malformed request, or to one of another method."""
        self.close_connection = True
        self.answer(code, f"{message or 'This request is not valid.'}\n".encode())

    def version_string(self) -> str:
        return "trlab-lab"

    def log_message(self, format: str, *args: Any) -> None:
        """Write no log."""
