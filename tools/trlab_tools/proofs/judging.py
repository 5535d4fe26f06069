"""Verdicts on wrong bodies, from the lines that the prover prints about the functions that they change."""
import functools
import re
from collections.abc import Iterable, Sequence
from typing import NamedTuple, Optional

from .bodies import Body
from .crates import Change, Crate
from .kinds import KINDS, PROOF, VALUES, Refusal, clauses_in, only_of_the_wrong_body, refusal_of

# An error in a proof file only because it names something that the edit took away, or depends on what does.
BY_NAME = re.compile(r"has no field|is not in scope|has no `|was not admitted|were not checked")
# A refusal that says nothing of a clause: the prover cannot read this form of code.
NOT_COVERED = re.compile(r"does not cover")
# A goal of a clause: what a function ensures, a type's invariant, or a loop's.
OF_CLAUSE = re.compile(r"what the function ensures|invariant|`(?:returns|loop)|/Proof\.antt|did not prove|which antt refuses")


class Verdict(NamedTuple):
    """The functions that are not proved with a body, each with its refusal, and the message of the prover if there are none."""

    refusing: dict[Change, Refusal]
    message: str

    @property
    def why(self) -> str:
        """The line about the first function that is not proved, or the message."""
        return next((refusal.line for refusal in self.refusing.values()), self.message)

    @property
    def by_clauses(self) -> list[Change]:
        """The functions of which a clause is not proved, and not only that a call may be made or that a sum fits its type."""
        return [change for change, refusal in self.refusing.items() if OF_CLAUSE.search(refusal.line)]

    @property
    def kind(self) -> str:
        """The strongest kind of its refusals."""
        kinds = {self.refusing[change].kind for change in self.by_clauses}
        return next((kind for kind in KINDS if kind in kinds), "")


def lines_about(lines: Iterable[str], function: str) -> list[str]:
    """The lines about the goals of a function, without those that say nothing of a clause."""
    begins = f"./proofs/{function.replace('::', '/')}/", f"note: {function}: "
    about_function = [line for line in lines if line.startswith(begins)]
    return [line for line in about_function if not BY_NAME.search(line) and not NOT_COVERED.search(line)]


def strongest_refusal(crate: Crate, lines: Sequence[str], function: str) -> Optional[Refusal]:
    """The strongest refusal of a clause of a function, or else the first one of anything; or None."""
    refusals = [refusal_of(line, crate.has_answers(function)) for line in lines_about(lines, function)]
    if refusals:
        of_clauses = [refusal for refusal in refusals if OF_CLAUSE.search(refusal.line)]
        return functools.reduce(Refusal.strongest, of_clauses or refusals[:1])
    status = status_of(crate, lines, function)
    return refusal_of(status, crate.has_answers(function)) if status else None


def status_of(crate: Crate, lines: Sequence[str], function: str) -> Optional[str]:
    """The status of a function as a whole, if it rejects a clause and no line is about one of its goals; or None."""
    begin, path = f"fn {crate.name}::{function}: ", function.replace("::", "/")
    if any(line.startswith((f"./proofs/{path}/", f"note: {function}: ")) for line in lines):
        return None
    status = next((line.removeprefix(begin) for line in lines if line.startswith(begin)), "")
    before, is_refused, _ = status.partition("which antt refuses")
    refused_names = re.findall(rf"`Rattle\.{crate.name}\.proofs\.([^`]+)`", before) if is_refused else []
    module, _, last = path.replace("/", ".").rpartition(".")
    # Its own answers, or those of the cycle of calls in which it is.
    own_answers = re.compile(rf"{re.escape(module)}\.?(?:\+(?:\S+[-+])?)?{re.escape(last)}\.")
    # A lemma is refused for its statement, but the answers of another function for that function.
    is_own = any(own_answers.match(name) or ".Answers." not in name for name in refused_names)
    return status if is_own or "did not prove" in status else None


def lines_for(crate: Crate, body: Body, together: Iterable[Body], lines: Sequence[str]) -> Sequence[str]:
    """The lines of the prover about one of the bodies that were tried together."""
    clauses = crate.clauses_against(body, together) if body.function else []
    goals = [f"`returns-clause-{clause}`" for clause in clauses if clause]
    if not goals:
        return lines
    # The goal of a law's only clause has no name.
    return [line for line in lines if any(goal in line for goal in ["`returns`", *goals])]


def verdict_on(crate: Crate, body: Body, together: Iterable[Body], lines: Sequence[str]) -> Verdict:
    """The verdict on one of the bodies that were tried together, from the lines of the prover."""
    lines_about_body = lines_for(crate, body, together, lines)
    changed = crate.changed_by(body)
    refusing = {}
    for path, change in changed.items():
        if refusal := strongest_refusal(crate, lines_about_body, path):
            refusing[change] = refusal
    return Verdict(refusing, message_of(crate, lines_about_body, changed))


def refused_by_hand(crate: Crate, verdict: Verdict) -> list[str]:
    """The functions of which only a proof by hand refuses a body, if no other one shows more."""
    if verdict.kind != PROOF:
        return []
    return [change.path for change in verdict.by_clauses if crate.has_answers(change.path)]


def strengthened(crate: Crate, verdict: Verdict, bare: Sequence[str], bare_of_right: Sequence[str]) -> Verdict:
    """The verdict on a body, or a stronger one, from the lines of the prover without proofs by hand: about the body (`bare`),
    and about the right body."""
    refusing = dict(verdict.refusing)
    for change in verdict.by_clauses:
        lines = [line for line in lines_about(bare, change.path) if OF_CLAUSE.search(line)]
        begins = f"note: {change.path}: ", f"fn {crate.name}::{change.path}: "
        open_of_right = clauses_in("\n".join(line for line in bare_of_right if line.startswith(begins)))
        refusals = [refusal_of(line, has_answers=False) for line in only_of_the_wrong_body(lines, open_of_right)]
        refusals += [Refusal(VALUES, line) for line in lines if refusal_of(line, has_answers=True).kind == VALUES]
        refusing[change] = functools.reduce(Refusal.strongest, refusals, refusing[change])
    return verdict._replace(refusing=refusing)


def message_of(crate: Crate, lines: Sequence[str], changed: Iterable[str]) -> str:
    """The message of the prover about functions that no clause refuses."""
    begins = tuple(f"fn {crate.name}::{path}: " for path in changed)
    messages = [line for line in lines if "error[" in line or line.startswith(begins)]
    return "; ".join(messages[:2]) or (lines or ["nothing"])[-1]
