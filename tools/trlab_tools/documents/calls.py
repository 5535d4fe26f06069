"""Does docs/dev/CALLS.md name functions that exist, each called by the one above it? A row of its blocks has a function, two
spaces further in than its caller; then, after at least two spaces, its crate if that is not the caller's; and a remark."""
import collections
import glob
import os
import re
from collections.abc import Iterator
from typing import NamedTuple, Optional

from .. import TOP
from ..command import Verdicts
from ..proofs.functions import functions_in

PAGE = "docs/dev/CALLS.md"
# The indent of a row, its function, its crate if that is not the caller's, and a remark.
ROW = re.compile(r"( *)([\w:]+)(?: {2,}(trlab_\w+))?(?: {2,}\S.*)?")
BLOCK = re.compile(r"```text\n(.*?)```", re.S)


class Row(NamedTuple):
    """A row: how many callers are above it, the function and its crate."""

    depth: int
    name: str
    crate: str


# The bodies of the functions with a crate and a name, each with the owner of its function.
Bodies = dict[tuple[str, str], list[tuple[str, str]]]


def bodies() -> Bodies:
    """The bodies of all functions by crate and name; several methods of a trait may have the same name."""
    bodies_by_name: Bodies = collections.defaultdict(list)
    crates = os.path.join(TOP, "crates")
    for path in glob.glob(os.path.join(crates, "*", "src", "**", "*.rt"), recursive=True):
        crate, _, file = os.path.relpath(path, crates).partition(os.sep)
        with open(path, encoding="utf-8") as source:
            text = source.read()
        for function in functions_in(file, text):
            bodies_by_name[crate, function.name].append((function.owner, text[function.body:function.end]))
    return bodies_by_name


def bodies_of(row: Row, every: Bodies) -> list[str]:
    """The bodies of the function of a row. A method of a trait is named by its type, or by its trait."""
    owner, _, name = row.name.rpartition("::")
    return [body for other, body in every[row.crate, name] if other == owner or owner and other.startswith(owner)]


def rows(block: str) -> Iterator[tuple[Row, Optional[Row]]]:
    """The rows of a block, each with the row of its caller, or with None."""
    above: list[Row] = []
    for line in block.splitlines():
        match = ROW.fullmatch(line)
        if not match or len(match[1]) % 2 or len(match[1]) // 2 > len(above):
            yield Row(0, line, ""), None
            continue
        del above[len(match[1]) // 2:]
        caller = above[-1] if above else None
        above.append(Row(len(above), match[2], match[3] or (caller.crate if caller else "")))
        yield above[-1], caller


def verdicts() -> Verdicts:
    """Whether each function of the page exists, and its caller calls it."""
    with open(os.path.join(TOP, PAGE), encoding="utf-8") as file:
        blocks = BLOCK.findall(file.read())
    every = bodies()
    for row, caller in (pair for block in blocks for pair in rows(block)):
        yield bool(bodies_of(row, every)), f"{PAGE}: {row.crate or 'no crate'} has no function {row.name}"
        if caller:
            call = re.compile(rf"\b{row.name.rpartition('::')[2]}(?:::<[^;]*?>)?\(")
            is_called = any(call.search(body) for body in bodies_of(caller, every))
            yield is_called, f"{PAGE}: {caller.name} does not call {row.name}"
