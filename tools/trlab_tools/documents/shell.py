"""The lines of the shell in a document, which run as those of a reader: beside the program, docs/ and examples/."""
import contextlib
import os
import subprocess
import tempfile
from collections.abc import Iterator
from unittest import mock

from .. import TOP, program

# Debian's awk, and that of most other systems.
AWKS = "mawk", "gawk"


@contextlib.contextmanager
def folder_of_reader() -> Iterator[str]:
    """A new folder with the trlab, docs and examples of this repository."""
    with tempfile.TemporaryDirectory() as folder:
        os.symlink(program.find(), os.path.join(folder, "trlab"))
        for name in "docs", "examples":
            os.symlink(TOP / name, os.path.join(folder, name))
        yield folder


@contextlib.contextmanager
def awk_of(path: str) -> Iterator[None]:
    """Within it this program is the command `awk`."""
    with tempfile.TemporaryDirectory() as folder:
        os.symlink(path, os.path.join(folder, "awk"))
        with mock.patch.dict(os.environ, PATH=os.pathsep.join([folder, os.environ["PATH"]])):
            yield


def run(lines: str, folder: str) -> tuple[str, bool]:
    """The output of lines of the shell in a folder, and whether they succeed."""
    words = ["bash", "-euo", "pipefail", "-c", lines]
    process = subprocess.run(words, cwd=folder, stdout=subprocess.PIPE, stderr=subprocess.STDOUT, text=True)
    return process.stdout, process.returncode == 0
