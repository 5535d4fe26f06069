"""Are the statements of docs/dev/GUARANTEES.md true about the files in which a promise is read, the tests against empty promises,
and the libraries that are trusted?"""
import re
from typing import NamedTuple

from .. import cases
from ..command import Verdicts
from ..finding import match_in
from ..proofs import record
from ..proofs.bodies import read
from ..proofs.crates import Crate, crates_of, libraries_of
from ..proofs.false_statements import FALSE
from ..proofs.judging import OF_CLAUSE
from .files import QUOTED, content

PAGE = "docs/dev/GUARANTEES.md"
# The list of files in which one promise is read, and a row of it: a file of crates/, and what to read there.
WALK = re.compile(r"^### Read one promise yourself\n(.*?)^##", re.M | re.S)
STEP = re.compile(r"^\| `(trlab_\w+/[\w/.]+)` \| (.*?) \|", re.M)
TRUSTED = re.compile(r"The statements of the kit's crates (.*?)\.$", re.M | re.S)


def defines(text: str, name: str) -> bool:
    """Whether a file has the function, the definition or the clause of this name."""
    forms = rf"\bfn {name}\b", rf"^(?:abbrev|unfoldable) pub {name} :", rf"^pub record {name}\b", rf"^ +ensures {name}\b"
    return any(re.search(form, text, re.M) for form in forms)


def walk_leads_to_definitions() -> Verdicts:
    """Each file of the list has the names that are to be read in it, and a file above it cites the first of them."""
    steps = STEP.findall(match_in(WALK, content(PAGE))[1])
    yield len(steps) >= 10, f"{PAGE} has no list of the files in which a promise is read"
    above: list[str] = []
    for file, cell in steps:
        text, names = content(f"crates/{file}"), QUOTED.findall(cell)
        for name in names:
            yield defines(text, name), f"{PAGE}: {file} does not define {name}"
        is_cited = any(re.search(rf"\b{names[0]}\b", other) for other in above)
        yield is_cited or not above, f"{PAGE}: no file above {file} cites {names[0]}"
        above.append(text)


class Row(NamedTuple):
    """A row of a record: a wrong body, the path of a function that the prover has refused with it, and whether a clause was."""

    body: str
    path: str
    is_by_clause: bool


def recorded(crate: Crate) -> list[Row]:
    """The rows of a crate's record."""
    lines = [line for line in read(record.path_of(crate)).splitlines() if not line.startswith(("#", "sources"))]
    rows = []
    for line in lines:
        body, _, path, _, refusal = line.split("\t")
        rows.append(Row(body, path, bool(OF_CLAUSE.search(refusal))))
    return rows


class Numbers(NamedTuple):
    """How many wrong bodies of a crate are refused, and by a clause of a public function; how many public functions have a clause,
    such a body, and a reason why they have none."""

    refused: int
    by_public_clause: int
    public: int
    covered: int
    without: int


def numbers_of_bodies(crate: Crate) -> Numbers:
    """The numbers of a crate."""
    rows = recorded(crate)
    names, names_by_clause = {row.body for row in rows}, {row.body for row in rows if row.is_by_clause}
    refused = [body for body in crate.bodies if body.name in names]
    by_public_clause = [body for body in refused if body.name in names_by_clause and not body.is_private]
    paths = {row.path for row in rows if row.is_by_clause}
    covered = [function for function in crate.public if any(function.path_in([path]) for path in paths)]
    return Numbers(len(refused), len(by_public_clause), len(crate.public), len(covered), len(crate.without))


def numbers_of_tests() -> dict[str, tuple[int, ...]]:
    """Statements with numbers, which are groups of these patterns, and the numbers that the files have."""
    numbers = Numbers(*map(sum, zip(*map(numbers_of_bodies, crates_of([])))))
    every_case = [case for name, content in cases.files() for case in cases.cases_of(name, content)]
    return {
        r"(\d+) wrong bodies, (\d+) of them by a clause of a public function": (numbers.refused, numbers.by_public_clause),
        r"(\d+) public functions with a clause; (\d+) have such a body, and (\d+) a reason why not": (
            numbers.public, numbers.covered, numbers.without
        ),
        r"(\d+) false statements of (\d+) laws": (len(FALSE), len({false.law for false in FALSE})),
        r"(\d+) cases with (\d+) command lines": (len(every_case), sum(len(case.calls) for case in every_case)),
    }


def numbers_are_right() -> Verdicts:
    """GUARANTEES has the numbers of wrong bodies, false laws and cases that the files have."""
    text = re.sub(r"\s+", " ", content(PAGE))
    for form, right in numbers_of_tests().items():
        found = [tuple(map(int, match.groups())) for match in re.finditer(form, text)]
        yield found == [right], f"{PAGE} has {found} instead of {right} in {form!r}"


def trusted_libraries_are_listed() -> Verdicts:
    """GUARANTEES names each library of the toolchain that crates.txt names, and no other."""
    crates = libraries_of()
    used = {name for names in crates.values() for name in names} - crates.keys()
    listed = set(QUOTED.findall(match_in(TRUSTED, content(PAGE))[1]))
    yield listed == used, f"{PAGE} and crates.txt have different trusted libraries: {sorted(listed ^ used)}"


def verdicts() -> Verdicts:
    """The verdicts of all tests of this module."""
    for test in walk_leads_to_definitions, numbers_are_right, trusted_libraries_are_listed:
        yield from test()
