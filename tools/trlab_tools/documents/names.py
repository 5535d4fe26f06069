"""Do the crates, files, functions, clauses and fields exist that documents name?"""
import contextlib
import functools
import os
import re
from collections.abc import Iterator

from ..command import Verdicts
from .files import FENCED, QUOTED, content, documents, exists, known_files

# Maps of crates, in which a file is named after its crate or its folder.
MAPS = "docs/dev/ARCHITECTURE.md", "docs/dev/EXTENDING.md"
# It uses the names that crates had at the time of each version.
CHANGES = "CHANGELOG.md"
# A crate in a document, possibly with a file of it; and a source or a definition.
CRATE = re.compile(r"`(trlab_\w+)(/[\w./]+)?`")
FILE = re.compile(r"(?:\w+/)*\w+\.(?:rt|antt)")
# A quotation that is only code, and not a file, a text or a command.
CODE = re.compile(r"[\w:.<>,&()?]+(?: \w+)*")
NAME = re.compile(r"\b(?:[A-Z][a-z]\w*|[A-Za-z]\w*_\w*)")
# Names that documents mention, but that no source uses.
NOT_USED = {"ord_max"}
# A function in a document, and the names of clauses right after it.
CITED_CLAUSES = re.compile(r"`(?:\w+::)?([a-z]\w*)`(?: \(`trlab_\w+`\))?,? \(?clauses? ((?:`\w+`(?:, | and )?)+)")
# Records in a document with fields: "`IsDriven`, fields `start` and `legal`", "field `calls` of `IsCleanStep`".
NAMES_OF_FIELDS = r"((?:`\w+`(?:, | and )?)+)"
RECORD_AND_FIELDS = re.compile(rf"((?:`[A-Z]\w*`(?: and )?)+)(?: \(`trlab_\w+`\))?[,:] fields? {NAMES_OF_FIELDS}")
FIELDS_OF_RECORD = re.compile(rf"\bfields? {NAMES_OF_FIELDS} of (`[A-Z]\w*`)")
# A record with its fields in a file of definitions, and a function with its contract in a source.
RECORD = re.compile(r"^pub record (\w+)(.*?)(?=^\S|\Z)", re.M | re.S)
CONTRACT = re.compile(r"\bfn (\w+)(.*?)(?=\n *\{\n|\bfn |\Z)", re.S)


def current_documents() -> list[str]:
    """The documents that use the names of today."""
    return [name for name in documents() if name != CHANGES]


def crates_are_there() -> Verdicts:
    """Each crate that a document names exists, and so does each of its files that is named with it."""
    for document in current_documents():
        for crate, path in sorted(set(CRATE.findall(content(document)))):
            yield exists(f"crates/{crate}{path}"), f"{document} names {crate}{path}, which does not exist"


def files_of_maps_are_there() -> Verdicts:
    """Each file in the maps of crates exists: `src/run.rt` belongs to the crate that its section named last, and `run.rt` is
    in the folder of the file named last."""
    for document in MAPS:
        for section in re.split(r"^#+ ", content(document), flags=re.M):
            for path in files_in_section(section):
                yield exists(f"crates/{path}"), f"{document} names {path}, which does not exist"


def files_in_section(section: str) -> Iterator[str]:
    """The files of crates that a section of a map names, by their paths in crates/."""
    crate, folder = "", ""
    for path in re.findall(r"`([\w./]+)`", section):
        crate_in_path = re.match(r"trlab_\w+", path)
        if crate_in_path:
            crate = crate_in_path[0]
        if not crate or not FILE.fullmatch(path):
            continue
        if path.startswith(("src/", "specs/", "proofs/")):
            path = os.path.join(crate, path)
            folder = os.path.dirname(path)
        elif crate_in_path:
            folder = os.path.dirname(path)
        else:
            path = os.path.join(folder, path)
        yield path


@functools.cache
def words_of_sources() -> set[str]:
    """Every word in the files that are not documents, and in their paths."""
    words: set[str] = set()
    for name in known_files():
        if not name.endswith(".md"):
            words.update(re.findall(r"\w+", name))
            with contextlib.suppress(UnicodeDecodeError):
                words.update(re.findall(r"\w+", content(name)))
    return words


def names_are_there() -> Verdicts:
    """Each name of code that a document cites, such as `IsNext` or `take_step`, occurs in some source."""
    for document in current_documents():
        code = "\n".join(filter(CODE.fullmatch, QUOTED.findall(FENCED.sub("", content(document)))))
        for name in sorted(set(NAME.findall(code)) - NOT_USED):
            yield name in words_of_sources(), f"{document} names `{name}`, which no source contains"


@functools.cache
def clauses_by_function() -> dict[str, set[str]]:
    """The clauses of all functions with a name, in all crates."""
    clauses: dict[str, set[str]] = {}
    for name in known_files():
        if name.endswith(".rt"):
            for function, contract in CONTRACT.findall(content(name)):
                clauses.setdefault(function, set()).update(re.findall(r"\bensures (\w+)", contract))
    return clauses


def clauses_are_there() -> Verdicts:
    """Each clause that a document names after a function belongs to this function."""
    for document in current_documents():
        for function, cited in CITED_CLAUSES.findall(on_one_line(document)):
            for clause in QUOTED.findall(cited):
                is_there = clause in clauses_by_function().get(function, ())
                yield is_there, f"{document} names the clause `{clause}` of `{function}`, which does not exist"


@functools.cache
def fields_by_record() -> dict[str, set[str]]:
    """The fields of all records with a name, in all definitions."""
    fields: dict[str, set[str]] = {}
    for name in known_files():
        if name.endswith(".antt"):
            for record, body in RECORD.findall(content(name)):
                fields.setdefault(record, set()).update(re.findall(r"^  pub (\w+) :", body, re.M))
    return fields


def fields_are_there() -> Verdicts:
    """Each field that a document names with one or two records belongs to them."""
    for document in current_documents():
        text = on_one_line(document)
        cited = RECORD_AND_FIELDS.findall(text) + [(record, names) for names, record in FIELDS_OF_RECORD.findall(text)]
        for records, names in cited:
            known_fields = set().union(*(fields_by_record().get(record, ()) for record in QUOTED.findall(records)))
            for field in QUOTED.findall(names):
                yield field in known_fields, f"{document} names the field `{field}` of {records}, which does not exist"


def on_one_line(document: str) -> str:
    """The text of a document with spaces instead of line ends."""
    return re.sub(r"\s+", " ", content(document))


def verdicts() -> Verdicts:
    """The verdicts of all tests of this module."""
    yield from crates_are_there()
    yield from files_of_maps_are_there()
    yield from names_are_there()
    yield from clauses_are_there()
    yield from fields_are_there()
