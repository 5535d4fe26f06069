"""The files of the repository, and their texts."""
import functools
import os
import re
import subprocess
from collections.abc import Iterator

from .. import TOP

# A block of a Markdown page, between lines of three backticks.
FENCED = re.compile(r"^```.*?^```$", re.M | re.S)
# Code in a text.
QUOTED = re.compile(r"`([^`]*)`")


@functools.cache
def content(name: str) -> str:
    """The text of a file of the repository."""
    return (TOP / name).read_text("utf-8")


def exists(name: str) -> bool:
    """Whether the repository has a file or a folder with this path."""
    return (TOP / name).exists()


def known_files() -> list[str]:
    """The files that git tracks or would add; all files if this is not a clone."""
    words = ["git", "ls-files", "-z", "--cached", "--others", "--exclude-standard"]
    process = subprocess.run(words, cwd=TOP, capture_output=True, text=True)
    if process.returncode == 0:
        return [name for name in process.stdout.split("\0") if (TOP / name).is_file()]
    return [
        os.path.relpath(os.path.join(folder, name), TOP)
        for folder, _, names in os.walk(TOP) if "/out" not in folder for name in names
    ]


def documents() -> list[str]:
    """The Markdown files of the repository."""
    return [name for name in known_files() if name.endswith(".md")]


def files_below(folder: str, ending: str) -> Iterator[str]:
    """The files in a folder, and in the folders below it, with this ending."""
    for path, _, names in sorted(os.walk(TOP / folder)):
        for name in sorted(names):
            if name.endswith(ending):
                yield os.path.relpath(os.path.join(path, name), TOP)
