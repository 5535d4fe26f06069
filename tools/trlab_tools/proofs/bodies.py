"""Wrong bodies (mutants), and the checks by which the prover rejects them.

A crate's wrong bodies are the files of must-fail/, one each, and its file wrong.edit. There each has a line `# its_name`,
and then lines `file: src/NAME.rt`, `old: TEXT` and `new: TEXT`: the text, which is in the file once, is replaced. After a
line `fn: Type::method` the text only has to be in that function once. A body that changes a constant names the function
that has to be refused, by a line `in: module::function`. A line `private` marks a body that no clause of a public
function refuses. A line `without: Type::method: REASON` names a public function that has no wrong body.

They are tried on a copy of the crate, over the libraries that ./test has proved here. Only the functions that they change
are proved there; the theorem of every other function is taken as proved, by a hole instead of its proof. This shows no
less: a body that is rejected although everything else is taken as proved is rejected in any case. crates.py has the crates,
prover.py the trials, judging.py their verdicts, and trials.py keeps the trials."""
import os
import re
from typing import NamedTuple

from .functions import functions_in

# The line with the name of a wrong body.
NAME = re.compile(r"(?m)^# (\w+)$")


class Edit(NamedTuple):
    """A text of a file, or of one function of it, and the text that replaces it."""

    file: str
    function: str
    old: str
    new: str


class Body(NamedTuple):
    """A wrong body: its edits, the function that it names, and whether it is marked as private."""

    name: str
    edits: list[Edit]
    function: str
    is_private: bool


def read(path: str) -> str:
    """The text of a file, or nothing if there is none."""
    if not os.path.exists(path):
        return ""
    with open(path, encoding="utf-8") as file:
        return file.read()


def bodies_in(path: str) -> list[Body]:
    """The wrong bodies of a file."""
    before, *named = NAME.split(read(path))
    if "old: " in before:
        raise SystemExit(f"{path}: the first wrong body has no name")
    return [body_of(name, text) for name, text in zip(named[::2], named[1::2])]


def body_of(name: str, text: str) -> Body:
    """The wrong body of this name, from the lines that describe it."""
    edits = []
    # An empty text is a line that is missing.
    lines = dict.fromkeys(("file", "fn", "old", "in"), "")
    is_private = False
    for line in text.splitlines():
        word, _, rest = line.partition(":")
        rest = rest.removeprefix(" ")
        if word == "new":
            edits.append(Edit(lines["file"], lines["fn"], lines["old"], rest))
        elif word in lines:
            lines[word] = rest
            lines["fn"] = "" if word == "file" else lines["fn"]
        is_private |= line.removeprefix("# ") == "private"
    return Body(name, edits, lines["in"], is_private)


def place_of(edit: Edit, text: str, name: str) -> int:
    """Where the old text of an edit is; a ValueError if it is not there exactly once."""
    begin, end = 0, len(text)
    if edit.function:
        spans = [(function.body, function.end) for function in functions_in(edit.file, text) if str(function) == edit.function]
        if len(spans) != 1:
            raise ValueError(f"{name}: {edit.file} has {len(spans)} functions {edit.function}")
        begin, end = spans[0]
    if (count := text.count(edit.old, begin, end)) != 1:
        raise ValueError(f"{name}: {edit.function or edit.file} has this text {count} times: {edit.old}")
    return text.index(edit.old, begin)
