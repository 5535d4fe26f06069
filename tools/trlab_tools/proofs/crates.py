"""The crates that ./test has proved here, with their functions and their wrong bodies."""
import functools
import glob
import json
import os
import re
from collections.abc import Collection, Iterable, Sequence
from typing import NamedTuple, Optional

from .. import TOP
from .bodies import Body, bodies_in, body_of, place_of, read
from .functions import Exports, Function, functions_in

# A clause of a law, the words in it that may be constants, and where a constant is declared.
CLAUSE = re.compile(r"ensures ?(\w*) \{([^}]*)\}")
WORD = re.compile(r"\b[A-Z][A-Z_]+\b")
CONSTANT = re.compile(r"\bconst (\w+):")
WITHOUT = re.compile(r"(?m)^without: ([\w:]+): (.+)$")


class Change(NamedTuple):
    """A function that a body changes: its path, as the prover names it, and whether it is public."""

    path: str
    is_public: bool
    shown: str


def libraries_of() -> dict[str, list[str]]:
    """The crates that each crate of the repository uses by name: of the repository, and of the toolchain."""
    lines = [line.partition("#")[0] for line in (TOP / "crates.txt").read_text("utf-8").splitlines()]
    named = (line.partition(":") for line in lines if line.strip())
    return {head.strip(): names.split() for head, _, names in named}


def crates_of(names: Collection[str]) -> list["Crate"]:
    """The crates with these names; all crates without names."""
    libraries = libraries_of()
    if unknown := [name for name in names if name not in libraries]:
        raise SystemExit(f"crates.txt names no crate {unknown[0]}")
    return [Crate(name, libraries[name], below(name, libraries)) for name in names or libraries]


def below(name: str, libraries: dict[str, list[str]]) -> list[str]:
    """The crates of the repository that a crate uses, or that those use."""
    direct = [used for used in libraries[name] if used in libraries]
    return sorted({*direct, *(lower for used in direct for lower in below(used, libraries))})


def rlib_folder(name: str) -> str:
    """The folder of the library of a crate that was proved here."""
    return os.path.join(TOP, "crates", name, "out", "rlib")


def function_around(file: str, text: str, offset: int) -> Optional[Function]:
    """The innermost function that has the line of a place in a file, or None."""
    end_of_line = text.index("\n", offset)
    around = [function for function in functions_in(file, text) if function.start <= end_of_line and offset < function.end]
    return around[-1] if around else None


class Crate:
    """A crate that ./test has proved here, and its wrong bodies."""

    def __init__(self, name: str, libraries: list[str], lower: list[str]) -> None:
        self.name, self.libraries, self.lower = name, libraries, lower
        self.folder = os.path.join(TOP, "crates", name)
        self.is_program = os.path.exists(os.path.join(self.folder, "src", "main.rt"))
        files = sorted(glob.glob(os.path.join(self.folder, "must-fail", "*.edit")))
        planted = [body_of(os.path.basename(file).removesuffix(".edit"), read(file)) for file in files]
        planted += bodies_in(os.path.join(self.folder, "wrong.edit"))
        # An edit of specs/ makes a law false, which has no body: false_statements/ has those.
        self.bodies = [body for body in planted if all(edit.file.startswith("src/") for edit in body.edits)]
        # The reason of each public function that has no wrong body.
        self.without = dict(WITHOUT.findall(read(os.path.join(self.folder, "wrong.edit"))))
        self.changed: dict[str, dict[str, Change]] = {}
        names = [body.name for body in self.bodies]
        if len(set(names)) < len(names):
            twice = next(name for name in names if names.count(name) > 1)
            raise SystemExit(f"{self.name}: two wrong bodies have the name {twice}")

    def of_library(self, name: str) -> bytes:
        """A file of the library that was proved here."""
        path = os.path.join(rlib_folder(self.name), f"{self.name}.rlib", name)
        if not os.path.exists(path):
            raise SystemExit(f"{self.name} is not proved here: run ./test first")
        with open(path, "rb") as file:
            return file.read()

    @functools.cached_property
    def paths(self) -> set[str]:
        """The paths of its functions, as the prover names them; of a program those of its root file."""
        if self.is_program:
            root = "src/main.rt"
            return {function.name for function in functions_in(root, self.text(root)) if not function.owner}
        return {name.removeprefix(f"{self.name}::") for name, _ in json.loads(self.of_library("toolchain/mir.json"))}

    @functools.cached_property
    def exports(self) -> Exports:
        """The names and the modules that the crate shows."""
        return Exports(self.folder)

    @functools.cached_property
    def public(self) -> list[Function]:
        """The public functions that have a clause and a body."""
        paths = sorted(glob.glob(os.path.join(self.folder, "src", "**", "*.rt"), recursive=True))
        files = [os.path.relpath(file, self.folder) for file in paths]
        functions = [function for file in files for function in functions_in(file, self.text(file))]
        with_body = [function for function in functions if function.has_clause and not function.is_empty]
        return [function for function in with_body if self.exports.has_public(function)]

    @functools.cached_property
    def proved_alone(self) -> set[str]:
        """The functions that have a proof of their own, without closures and functions in a cycle of calls; of a program none."""
        if self.is_program:
            return set()
        names_of_proofs = "\n".join(json.loads(row)[0] for row in self.of_library("toolchain/made.json").splitlines())
        paths = [path.split("/") for path in re.findall(r"(?m)^proofs/((?:\w+/)*\w+)/Code$", names_of_proofs)]
        cycles = re.findall(r"(?m)^proofs/((?:\w+/)*)\+[^/\n]+/Code/\+([^/\n]+)$", names_of_proofs)
        shared = {(module + name.replace("-", "/")).replace("/", "::") for module, name in cycles}
        return {"::".join(path) for path in paths if "fn" not in path} - shared

    def text(self, file: str) -> str:
        """The text of a file of the crate."""
        with open(os.path.join(self.folder, file), encoding="utf-8") as source:
            return source.read()

    def edited(self, bodies: Iterable[Body]) -> dict[str, str]:
        """The texts of the files that bodies change, by their names. A text that is not there once is a ValueError."""
        texts: dict[str, str] = {}
        for body in bodies:
            for edit in body.edits:
                text = texts.get(edit.file) or self.text(edit.file)
                place = place_of(edit, text, body.name)
                texts[edit.file] = text[:place] + edit.new + text[place + len(edit.old):]
        return texts

    def misfit(self, bodies: Iterable[Body]) -> Optional[str]:
        """Why the edits of bodies cannot be made, or None."""
        try:
            self.edited(bodies)
        except ValueError as error:
            return str(error)
        return None

    def changed_by(self, body: Body) -> dict[str, Change]:
        """The functions that a body changes, by their paths."""
        if body.name not in self.changed:
            self.changed[body.name] = self.find_changed(body)
        return self.changed[body.name]

    def find_changed(self, body: Body) -> dict[str, Change]:
        """The same as `changed_by`, which keeps the result."""
        if body.function:
            return {body.function: Change(body.function, self.is_law_public(body.function), body.function)}
        texts: dict[str, str] = {}
        changed: dict[str, Change] = {}
        for edit in body.edits:
            text = texts.get(edit.file) or self.text(edit.file)
            place = place_of(edit, text, body.name)
            indent = len(edit.old) - len(edit.old.lstrip())
            function = function_around(edit.file, text, place + indent)
            path = function.path_in(self.paths) if function else None
            if not function or not path:
                raise SystemExit(f"{self.name}: {body.name} changes no function, and has no line `in`")
            texts[edit.file] = text[:place] + edit.new + text[place + len(edit.old):]
            is_public = self.exports.has_public(function) and function.has_clause
            changed[path] = Change(path, is_public, str(function))
        return changed

    def can_join(self, body: Body, others: Sequence[Body]) -> bool:
        """Whether a body can be tried together with others: each of them is judged by functions, or by clauses of a law, that no
        other one changes."""
        if not others:
            return True
        if bool(body.function) != bool(others[0].function):
            return False
        together = [*others, body]
        if body.function:
            return all(self.clauses_against(one, together) for one in together)
        is_apart = not self.changed_by(body).keys() & set().union(*map(self.changed_by, others))
        return is_apart and not self.misfit(together)

    def clauses_against(self, body: Body, together: Iterable[Body]) -> list[str]:
        """The clauses of the law that a body names which are about a constant that no other body changes."""
        module, _, name = body.function.rpartition("::")
        file = f"src/{module.replace('::', '/') or 'lib'}.rt"
        law = next(function for function in functions_in(file, self.text(file)) if function.name == name)
        own, others = self.constants_of(body), set().union(*(self.constants_of(other) for other in together if other is not body))
        clauses = []
        for clause, text in CLAUSE.findall(self.text(file)[law.start:law.end]):
            words = set(WORD.findall(text))
            if words & own and not words & others:
                clauses.append(clause)
        return clauses

    def constants_of(self, body: Body) -> set[str]:
        """The constants that a body changes."""
        lines = [line for edit in body.edits for line in self.text(edit.file).splitlines() if edit.old in line]
        return {name for line in lines for name in CONSTANT.findall(line)}

    def is_law_public(self, path: str) -> bool:
        """Whether a law that a body names is shown: it is in a public module."""
        return path.rpartition("::")[0] in self.exports.modules

    def answers_of(self, function: str, folder: str = "") -> str:
        """The path of a function's proof by hand, in the crate or in a copy."""
        return os.path.join(folder or self.folder, "proofs", *function.split("::"), "Answers.antt")

    def has_answers(self, function: str) -> bool:
        """Whether a function has a proof by hand."""
        return os.path.exists(self.answers_of(function))
