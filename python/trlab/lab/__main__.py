"""The command `trlab-lab`, and `python -m trlab.lab`."""
from __future__ import annotations

import argparse
import base64
import contextlib
import errno
import io
import re
import signal
import sys
import zlib
from pathlib import Path
from typing import Optional

from .._errors import TrlabError
from .alone import open_page, page_needed
from .export import exported
from .opening import opened_in_browser
from .server import MAX_BYTES, Lab

MAX_ADDRESS = 1000000
"""The maximum length of an address with a job; Firefox opens no address beyond 1 MiB."""


def main(words: Optional[list[str]] = None) -> None:
    """Serve the page until it is interrupted, or export a run."""
    parser = argparse.ArgumentParser(
        prog="trlab-lab", description="Show moving traffic in the browser, computed by trlab on this machine."
    )
    parser.add_argument("job", nargs="?", metavar="JOB", help="open this job file, or a link that the page made")
    parser.add_argument("--port", type=int, default=0, help="listen on this port (default: any free port)")
    parser.add_argument("--no-browser", action="store_true", help="print the address, but do not open the browser")
    parser.add_argument("--export", metavar="FILE", help="write FILE, which plays the run of the job on standard input")
    options = parser.parse_args(words)
    # It may be ignored since before Python started, and then exit statuses of trlab are lost. Windows does not have it.
    if hasattr(signal, "SIGCHLD"):
        signal.signal(signal.SIGCHLD, signal.SIG_DFL)
    try:
        if options.export:
            if isinstance(sys.stdin, io.TextIOWrapper):
                sys.stdin.reconfigure(encoding="utf-8", errors="surrogateescape")
            if options.job:
                parser.error("--export reads the job from standard input: trlab-lab --export FILE < JOB")
            Path(options.export).write_text(exported(sys.stdin.read(MAX_BYTES + 1)), encoding="utf-8")
        else:
            _show(options.port, fragment(options.job) if options.job else "", options.no_browser)
    except (TrlabError, OSError, ValueError, OverflowError) as error:
        sys.exit(f"trlab-lab: {error}")


def fragment(job: str) -> str:
    """The part of the page's address that holds a job: that of a link, or made from a job file. Raises `ValueError` if
    the link is damaged or the file too long."""
    if "#job=" in job:
        part = job[job.index("#job=") :]
        if not re.fullmatch("#job=[A-Za-z0-9_-]+", part):
            raise ValueError("the link is damaged: only letters, digits, - and _ may follow #job=")
        return part
    with open(job, "rb") as file:
        text = file.read(MAX_BYTES + 1)
    if len(text) > MAX_BYTES:
        raise ValueError(f"{job} is too long: at most {MAX_BYTES} bytes are allowed")
    packer = zlib.compressobj(9, zlib.DEFLATED, -15)  # without a header, as the page reads it
    packed = packer.compress(text) + packer.flush()
    part = "#job=" + base64.urlsafe_b64encode(packed).rstrip(b"=").decode()
    if len(part) > MAX_ADDRESS:
        advice = "run trlab-lab without it, and click *Open a file* in the page"
        raise ValueError(f"{job} is too long for an address: {advice}")
    return part


def _show(port: int, job: str, no_browser: bool) -> None:
    """Serve the page, or open the one that contains the program if there is no native program."""
    if not 0 <= port <= 65535:
        raise ValueError(f"the port must be between 0 and 65535, not {port}")
    page = page_needed()
    if page is None:
        _serve(port, job, no_browser)
    else:
        open_page(page, job, no_browser)


def _serve(port: int, job: str, no_browser: bool) -> None:
    """Serve the page until a signal ends the server."""
    for ending in signal.SIGTERM, signal.SIGHUP, signal.SIGQUIT:
        signal.signal(ending, lambda *_: sys.exit())
    try:
        lab = Lab(port)
    except OSError as error:
        if error.errno not in (errno.EADDRINUSE, errno.EACCES):
            raise
        raise OSError(f"cannot listen on port {port}: {error.strerror}; choose another with --port") from None
    address = lab.address + job
    try:
        print(address, flush=True)
        with contextlib.nullcontext() if no_browser else opened_in_browser(address):
            lab.serve_forever()
    except KeyboardInterrupt:
        pass
    finally:
        lab.close()


if __name__ == "__main__":
    main()
