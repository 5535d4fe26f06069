"""The page that contains the program. It is opened instead of the server on machines that no native program fits."""
from __future__ import annotations

import os
import sys
import webbrowser
from pathlib import Path
from typing import NamedTuple, Optional

from .._errors import ProgramNotFoundError
from .._runs.location import find_program
from .scripts import HERE

PAGE_PATHS = HERE.parent / "programs" / "trlab-lab.html", HERE.parents[2] / "release" / "trlab-lab.html"
"""The paths of the page in an installed package and in a checkout."""


class Page(NamedTuple):
    """The page, and why it is opened."""

    path: Path
    reason: str


def page_needed() -> Optional[Page]:
    """The page, or None if there is a native program. Raises `ProgramNotFoundError` if there is neither, or if the
    environment variable TRLAB names another file."""
    reason = "no native program of trlab fits this machine"
    try:
        # A script runs the program in WebAssembly, as the page does.
        if not find_program().endswith(".mjs"):
            return None
    except ProgramNotFoundError as error:
        if os.environ.get("TRLAB"):
            raise
        reason = str(error)
    path = next((path for path in PAGE_PATHS if path.is_file()), None)
    if path is None:
        raise ProgramNotFoundError(f"{reason}; and there is no page that contains the program, {PAGE_PATHS[0]}")
    return Page(path, reason)


def open_page(page: Page, job: str, no_browser: bool) -> None:
    """Print the address of the page with a job, which is a part of an address, and open it."""
    address = page.path.as_uri() + job
    remark = "so the page computes by itself: it needs no server, and this command ends"
    print(f"trlab-lab: {page.reason}, {remark}", file=sys.stderr)
    print(address, flush=True)
    if not no_browser and not webbrowser.open(address):
        print("trlab-lab: no browser could be opened. Open this address in one.", file=sys.stderr)
