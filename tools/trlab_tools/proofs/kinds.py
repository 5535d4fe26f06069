"""The kinds of refusals of wrong bodies.

A function with a proof by hand (Answers.antt) is refused as soon as this proof does not fit the wrong body, which it might not
do even if the clause held. So a body that only a proof by hand refuses is tried once more without that proof: then the search
proves the clause or not, as it does for the right body."""
import re
from collections.abc import Iterable
from typing import NamedTuple

# The prover has found values that meet all facts known there, and break the goal: no proof closes it.
VALUES = "values"
# Without proofs by hand the search proves this goal of the right body, and not of the wrong one.
SEARCH = "search"
# The proof by hand of the right body does not fit the wrong one.
PROOF = "proof"
# The search has reached a limit: neither a proof nor values are known.
LIMIT = "limit"
KINDS = {
    VALUES: "values break the goal",
    SEARCH: "the search proves the goal of the right body only",
    PROOF: "the proof by hand of the right body does not fit",
    LIMIT: "the search has reached a limit",
}

BREAKING = re.compile(r"allow values at which|and the goal fails at")
AT_LIMIT = re.compile(r"gave up at one of its limits")
GOAL = re.compile(r"`((?:returns|invariant_of|loop)[^`\s]*)`")
# The goals of a clause, or of an invariant, differ by the path of control, which a wrong body may change.
CLAUSE_OF_GOAL = re.compile(r"^(returns|invariant_of-\w+)(?:-.*?)??(-clause-\w+|)$")


class Refusal(NamedTuple):
    """A line of the prover about a clause that it rejects, and the kind of evidence that this is."""

    kind: str
    line: str

    def strongest(self, other: "Refusal") -> "Refusal":
        """This refusal, or another one that shows more."""
        order = list(KINDS)
        return min(self, other, key=lambda refusal: order.index(refusal.kind))


def refusal_of(line: str, has_answers: bool) -> Refusal:
    """The refusal in a line about a function, which has a proof by hand or not."""
    if BREAKING.search(line):
        return Refusal(VALUES, line)
    if has_answers:
        return Refusal(PROOF, line)
    return Refusal(LIMIT if AT_LIMIT.search(line) else SEARCH, line)


def clauses_in(text: str) -> set[str]:
    """The clauses, and the invariants, of which a text names goals."""
    return {CLAUSE_OF_GOAL.sub(r"\1\2", goal) for goal in GOAL.findall(text)}


def only_of_the_wrong_body(lines: Iterable[str], open_of_right: set[str]) -> list[str]:
    """The lines about goals of clauses that the search, without proofs by hand, proves of the right body."""
    return [line for line in lines if clauses_in(line) - open_of_right]
