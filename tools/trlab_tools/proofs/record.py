"""The verdicts on a crate's wrong bodies, recorded in its file wrong.verdicts, so that ./test does not have to ask for all of
them again each time.

A record is current if nothing has changed on which its verdicts depend: the crate's sources, definitions and proofs, the
sources and definitions of the crates below, and the toolchain's logic; and a row is current if its body has the same edits.
All other bodies are tried again, and so is a sample of the bodies, which changes with the sources of the program."""
import functools
import hashlib
import os
import re
import subprocess
from collections.abc import Iterable

from .. import TOP
from . import trials
from .bodies import Body
from .crates import Crate
from .judging import OF_CLAUSE, Verdict
from .kinds import KINDS, Refusal

# The mean number of rounds of which one is tried again although its verdicts are recorded.
ONE_OF = 16
HEAD = (
    "# Written by `tools/mutants --write`: each wrong body, the sum of its edits, and the kind and the words of a function's "
    "refusal.\n"
)
# The logic in the output of `rt --version`.
LOGIC = re.compile(r"\blogic (\w+)")
MAX_CHARACTERS = 150
# Where the prover would look for a proof by hand; the row of a record already names the function.
PLACE_OF_ANSWERS = re.compile(r"expected answers in \S+; ")
# The refusals of the functions that each body changes, by the body's name and their paths.
Recorded = dict[str, dict[str, Refusal]]


@functools.cache
def logic() -> str:
    """What identifies the logic of the toolchain."""
    version = subprocess.run(["rt", "--version"], capture_output=True, check=True, text=True).stdout
    if not (match := LOGIC.search(version)):
        raise SystemExit(f"`rt --version` names no logic: {version}")
    return match[1]


def sum_of(crate: Crate) -> str:
    """The checksum of all on which the verdicts on a crate's bodies depend, but for the bodies."""
    crates = os.path.dirname(crate.folder)
    parts_of_crate = [os.path.join(crate.folder, part) for part in ("src", "specs", "proofs")]
    lower = [os.path.join(crates, name, part) for name in crate.lower for part in ("src", "specs")]
    sum_of_files = trials.sum_of([*parts_of_crate, *lower], os.path.dirname(crates))
    return hashlib.sha256(f"{logic()} {sum_of_files}".encode()).hexdigest()


def sum_of_body(body: Body) -> str:
    """The checksum of what a body changes."""
    return hashlib.sha256(repr((body.edits, body.function)).encode()).hexdigest()[:16]


@functools.cache
def sum_of_program() -> str:
    """The checksum of the sources of the program."""
    return subprocess.run([str(TOP / "release" / "sources")], capture_output=True, check=True, text=True).stdout.strip()


def is_in_sample(crate: Crate, number: int) -> bool:
    """Whether a round of a crate is tried again although its verdicts are recorded."""
    drawn = hashlib.sha256(f"{sum_of_program()} {crate.name} {number}".encode()).hexdigest()
    return int(drawn, 16) % ONE_OF == 0


def path_of(crate: Crate) -> str:
    """The path of a crate's record."""
    return os.path.join(crate.folder, "wrong.verdicts")


def read(crate: Crate) -> Recorded:
    """The rows of a record that are current: none if the crate has changed, and none of a body that has."""
    if not os.path.exists(path_of(crate)):
        return {}
    with open(path_of(crate), encoding="utf-8") as file:
        head, *rows = [line.rstrip("\n").split("\t") for line in file if not line.startswith("#")]
    if head != ["sources", sum_of(crate)]:
        return {}
    bodies = {(body.name, sum_of_body(body)): body for body in crate.bodies}
    recorded: Recorded = {}
    for name, edits, path, kind, line in rows:
        body = bodies.get((name, edits))
        if body and kind in KINDS and path in crate.changed_by(body):
            recorded.setdefault(name, {})[path] = Refusal(kind, line)
    return recorded


def known_of(crate: Crate, number: int, together: Iterable[Body], recorded: Recorded) -> list[Body]:
    """The bodies of the round with this number whose verdicts are those of the record: all that it has, unless the sample has
    drawn this round."""
    return [] if is_in_sample(crate, number) else [body for body in together if body.name in recorded]


def verdict_on(crate: Crate, body: Body, recorded: Recorded) -> Verdict:
    """The verdict on a body that is in the record."""
    changed = crate.changed_by(body)
    return Verdict({changed[path]: refusal for path, refusal in recorded[body.name].items()}, "")


def shortened(line: str) -> str:
    """The beginning of what the prover says, with the words that show whether a clause was refused."""
    line = PLACE_OF_ANSWERS.sub("", line)
    refusal = OF_CLAUSE.search(line)
    return line[:max(MAX_CHARACTERS, refusal.end() if refusal else 0)].replace("\t", " ")


def write(crate: Crate, verdicts: list[tuple[Body, Verdict]]) -> None:
    """Record the verdicts on all bodies of a crate. A body that no function refuses gets no row, so that it is tried again."""
    rows = [
        "\t".join([body.name, sum_of_body(body), change.path, refusal.kind, shortened(refusal.line)]) + "\n"
        for body, verdict in sorted(verdicts, key=lambda pair: pair[0].name)
        for change, refusal in verdict.refusing.items()
    ]
    with open(path_of(crate), "w", encoding="utf-8") as file:
        file.writelines([HEAD, f"sources\t{sum_of(crate)}\n", *rows])
