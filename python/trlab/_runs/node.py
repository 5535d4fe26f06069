"""The program in WebAssembly, which Node runs on machines that no native program fits."""
from __future__ import annotations

import base64
import gzip
import hashlib
import re
import shutil
import zlib
from pathlib import Path
from typing import NamedTuple, Optional

from .._errors import ProgramNotFoundError

_HERE = Path(__file__).resolve().parents[1]
_NAME = "trlab-node.mjs"
_PAGE = "trlab-lab.html"
# The line of release.txt with the SHA-256 of the program in WebAssembly.
_SUM = re.compile("^wasm ([0-9a-f]{64})$", re.M)
PROGRAM = re.compile(r'<script [^>]*\bid="program"[^>]*>([^<]*)<')
"""The element of a page that contains the program."""


class InWebAssembly(NamedTuple):
    """The script that Node runs, and the page that contains the program."""

    script: Path
    page: Path

    def module(self) -> bytes:
        """The module in the page. Raises `ProgramNotFoundError` if it is not the released one."""
        try:
            module = module_in(self.page.read_text("utf-8"))
            known = _SUM.search((self.page.parent / "release.txt").read_text("utf-8"))
        except (OSError, ValueError, EOFError, zlib.error) as error:
            raise ProgramNotFoundError(f"{self.page} is damaged: install trlab again ({error})") from None
        if known is None or hashlib.sha256(module).hexdigest() != known[1]:
            raise ProgramNotFoundError(f"{self.page} is damaged: install trlab again (the program has another SHA-256)")
        return module


def module_in(page: str) -> bytes:
    """The module of WebAssembly in a page: the element with the id `program`, which is compressed and then in
    base64."""
    match = PROGRAM.search(page)
    if match is None:
        raise ValueError("the page contains no program")
    return gzip.decompress(base64.b64decode(match[1]))


def of_package() -> Optional[InWebAssembly]:
    """The program in WebAssembly of the installed package, or of the checkout."""
    top = _HERE.parents[1]
    for scripts, pages in (_HERE / "node", _HERE / "programs"), (top / "node", top / "release"):
        release = InWebAssembly(scripts / _NAME, pages / _PAGE)
        if release.script.is_file() and release.page.is_file():
            return release
    return None


def is_for_node(program: str) -> bool:
    """Whether a program is a script that Node runs."""
    return program.endswith(".mjs")


def sha256_of_module(script: str) -> str:
    """The SHA-256 of the program that a script for Node runs: its own, if it is not the one of this package."""
    release = of_package()
    is_ours = release is not None and Path(script).resolve() == release.script
    content = release.module() if release is not None and is_ours else Path(script).read_bytes()
    return hashlib.sha256(content).hexdigest()


def node() -> Optional[str]:
    """The path of Node."""
    return shutil.which("node")


def command_of(program: str) -> list[str]:
    """How to start a program: a script for Node by Node."""
    if not is_for_node(program):
        return [program]
    path = node()
    if path is None:
        raise ProgramNotFoundError(f"{program} needs Node 18 or later, and `node` is not on the PATH")
    return [path, program]
