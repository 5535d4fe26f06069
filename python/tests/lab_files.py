"""The page of trlab-lab as one file, for its tests.

The program is that of the file that the environment variable TRLAB_WASM names, or of release/trlab-lab.html. The page
around it is always that of the sources here."""
import base64
import gzip
import os
import re
import tempfile
import unittest
from pathlib import Path
from typing import Optional

from tests.browsers import Window, missing
from tests.lab_pages import OnPage
from trlab._runs.children import Child
from trlab.lab import server
from trlab.lab.whole import whole_page

RELEASED = Path(__file__).resolve().parents[2] / "release" / "trlab-lab.html"
PROGRAM = re.compile(r'<script type="text/plain" id="program">([^<]*)<')


def module() -> Optional[bytes]:
    """The program in WebAssembly, or None."""
    if named := os.environ.get("TRLAB_WASM"):
        return Path(named).read_bytes()
    match = PROGRAM.search(RELEASED.read_text("utf-8")) if RELEASED.is_file() else None
    return gzip.decompress(base64.b64decode(match[1])) if match else None


MODULE = module()
WITHOUT = ""
"""The reason why there is no page with a program, or nothing."""
if not MODULE:
    WITHOUT = "there is no program in WebAssembly: release/trlab-lab.html, or the file that TRLAB_WASM names"


def lacking(browser: str) -> str:
    """The reason why the page cannot be tested as a file in a browser, or nothing."""
    return missing(browser) or WITHOUT


class File:
    """A page in a file, as the tests of the page know the server."""

    def __init__(self, test: type[unittest.TestCase], text: str) -> None:
        folder = tempfile.TemporaryDirectory()
        test.addClassCleanup(folder.cleanup)
        path = Path(folder.name) / "trlab-lab.html"
        path.write_text(text, "utf-8")
        self.address = path.as_uri()
        self.children: list[Child] = []  # no process runs for it


class InFile(OnPage):
    """A page in a file, in one browser."""

    @classmethod
    def text(cls) -> str:
        assert MODULE is not None
        return whole_page(MODULE, server.examples())

    @classmethod
    def setUpClass(cls) -> None:
        cls.lab = File(cls, cls.text())
        cls.page = Window(cls.browser, cls.lab.address)
        cls.addClassCleanup(cls.page.close)

    def examples(self) -> dict[str, str]:
        """The examples that the page offers: rules in Python need the server."""
        return {name: text for name, text in server.examples().items() if not name.endswith(".py")}
