"""The functions of a crate's sources: where each begins and ends, whether it is public, and whether it has a clause."""
import os
import re
from collections.abc import Collection
from typing import NamedTuple, Optional

from ..finding import match_in

# Where a function begins, and where what it may be a method of begins.
FUNCTION = re.compile(r"(?m)^( *)(pub(?:\(\w+\))? )?(?:const )?fn (\w+)")
BLOCK = re.compile(r"(?m)^(?:pub )?(?:impl|trait)\b([^{]*)")
MODULE = re.compile(r"(?m)^(?:(pub)(?:\(\w+\))? )?mod (\w+);")
EXPORT = re.compile(r"(?m)^pub use ([^;]+);")


class Function(NamedTuple):
    """A function of a source: what it is a method of, its name, and where it, its body and its end are in its file."""

    file: str
    owner: str
    name: str
    start: int
    body: int
    end: int
    is_pub: bool
    has_clause: bool
    is_empty: bool

    def __str__(self) -> str:
        return f"{self.owner}::{self.name}" if self.owner else self.name

    @property
    def module(self) -> str:
        """The path of the module of its file."""
        return re.sub(r"^src/((lib|main)\.rt)?|\.rt$", "", self.file).replace("/", "::")

    def path_in(self, paths: Collection[str]) -> Optional[str]:
        """Its path, out of the paths by which the prover names the functions of its crate, or None."""
        last = rf"{re.escape(self.owner)}\w*::{self.name}" if self.owner else self.name
        in_module = [path for path in paths if re.fullmatch(rf"{self.module}(::)?{last}", path)]
        # A method is named by the module of its type, which may be in another file.
        candidates = in_module or [path for path in paths if self.owner and re.fullmatch(rf"(\w+::)*{last}", path)]
        return min(candidates, key=len) if candidates else None


def base_name(kind: str) -> str:
    """The name of a type or a trait without its path, its lifetimes and its parameters."""
    return re.sub(r"<.*", "", kind.strip()).rpartition("::")[2].strip("&' ")


def without_parameters(head: str) -> str:
    """What follows the parameters of an `impl`."""
    depth = 0
    for place, sign in enumerate(head):
        # (The arrow of a function type closes nothing.)
        depth += (sign == "<") - (sign == ">" and head[place - 1] != "-")
        if depth == 0:
            return head[place + 1:] if sign == ">" else head
    return head


def owner_in(head: str) -> str:
    """What the prover's name of a method begins with, from the line at which its `impl` or `trait` begins."""
    trait, is_for, kind = without_parameters(head.strip()).rpartition(" for ")
    return base_name(kind) + (base_name(trait) if is_for else "")


def functions_in(file: str, text: str) -> list[Function]:
    """The functions of a file."""
    return [function_at(file, text, match) for match in FUNCTION.finditer(text)]


def function_at(file: str, text: str, match: re.Match[str]) -> Function:
    """The function that begins at a match of FUNCTION."""
    indent, visibility, name = match.groups()
    owner = owner_in(list(BLOCK.finditer(text, 0, match.start()))[-1][1]) if indent else ""
    # Its body begins on a line of its own if it has clauses.
    brace = match_in(rf"(?m)^{indent}([{{}}]\S*)|\Z", text, begin=match.start())
    head = text[match.start():brace.start()]
    end = text.index(f"\n{indent}}}", brace.start()) + len(indent) + 2 if brace[1] == "{" else brace.end()
    return Function(
        file, owner, name, match.start(), brace.start() if brace[1] in ("{", "{}") else match.start(), end,
        is_pub=visibility == "pub ",
        has_clause=bool(re.search(rf"(?m)^{indent}    ensures\b", head)),
        is_empty=not text[brace.start():end].strip("{} \n"),
    )


class Exports:
    """The public names and modules of a library."""

    def __init__(self, folder: str) -> None:
        self.names: set[str] = set()
        self.modules: set[str] = set()
        self.is_program = not os.path.exists(os.path.join(folder, "src", "lib.rt"))
        if not self.is_program:
            self.read(folder, "src/lib.rt", ())

    def read(self, folder: str, file: str, module: tuple[str, ...]) -> None:
        """Read the exports of a file, and of the modules that it names."""
        with open(os.path.join(folder, file), encoding="utf-8") as source:
            text = re.sub(r"//.*", "", source.read())
        for exported in EXPORT.findall(text):
            self.names |= set(re.findall(r"(\w+)(?=\s*[,}]|\s*$)", exported))
        for pub, name in MODULE.findall(text):
            if pub:
                self.modules.add("::".join((*module, name)))
            self.read(folder, os.path.join("src", *module, f"{name}.rt"), (*module, name))

    def has_public(self, function: Function) -> bool:
        """Whether a function is public. A program has no public functions, so there each one with a clause counts."""
        if self.is_program:
            return function.has_clause
        return function.is_pub and ((function.owner or function.name) in self.names or function.module in self.modules)
