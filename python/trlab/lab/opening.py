"""Opening the page in a browser. Every user of the machine can read the arguments of a process, and an argument has at
most 128 KiB: so the browser is given a file that only its owner can read, and the file leads to the address."""
from __future__ import annotations

import contextlib
import os
import sys
import tempfile
import threading
import webbrowser
from collections.abc import Iterator
from html import escape
from pathlib import Path

_REDIRECT = """<!doctype html>
<html lang="en">
<meta charset="utf-8">
<meta name="referrer" content="no-referrer">
<meta http-equiv="refresh" content="0; url={address}">
<title>trlab</title>
<p>This file leads to <a href="{address}">the page of trlab-lab</a>.</p>
</html>
"""


@contextlib.contextmanager
def opened_in_browser(address: str) -> Iterator[None]:
    """Open an address in the browser of this user, by way of a file that is removed at the end. If no browser can be
    opened, a message on standard error says so."""
    number, name = tempfile.mkstemp(prefix="trlab-lab-", suffix=".html")  # of mode 600
    try:
        with open(number, "w", encoding="utf-8") as file:
            file.write(_REDIRECT.format(address=escape(address)))
        # Some browsers return only when they are closed.
        threading.Thread(target=_open, args=(Path(name), address), daemon=True).start()
        yield
    finally:
        with contextlib.suppress(FileNotFoundError):
            os.unlink(name)


def _open(path: Path, address: str) -> None:
    """Open the file that leads to an address, or print the address."""
    try:
        is_open = webbrowser.open(path.as_uri())
    except (OSError, webbrowser.Error):
        is_open = False
    if not is_open:
        message = f"trlab-lab: no browser could be opened. Open this address in one: {address}"
        print(message, file=sys.stderr, flush=True)
