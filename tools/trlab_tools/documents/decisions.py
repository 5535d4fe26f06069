"""Is each decision of docs/dev/DECISIONS.md short, and does each decision exist that a file cites?"""
import re

from ..command import Verdicts
from .files import content, known_files

PAGE = "docs/dev/DECISIONS.md"
MAX_WORDS = 60
DECISION = re.compile(r"^\*\*(\d+)\. (.*?)(?=\n\n|\n*\Z)", re.M | re.S)
# A viewer of the page would renumber the items of a list.
IN_A_LIST = re.compile(r"^(\d+)\. \*\*", re.M)
# On the page itself a decision is cited as (12) or (12, 14); elsewhere after the name of the page.
CITED_ON_PAGE = re.compile(r"\((\d{1,3}(?:,\s+\d{1,3})*)\)")
CITED_ELSEWHERE = re.compile(r"DECISIONS\.md\)?,?\s+((?:\d{1,3}(?:,\s+|\s+and\s+|\s+to\s+)?)+)")


def decisions() -> list[tuple[int, str]]:
    """The number of each decision and its text, in the order of the page."""
    return [(int(number), text) for number, text in DECISION.findall(content(PAGE))]


def decisions_are_short() -> Verdicts:
    """Each number belongs to one decision, and each decision is short. Numbers are permanent, so that some are missing."""
    numbers = [number for number, _ in decisions()]
    for number, text in decisions():
        is_right = numbers.count(number) == 1 and len(text.split()) <= MAX_WORDS
        yield is_right, f"decision {number} exists twice, or has more than {MAX_WORDS} words"
    for number in IN_A_LIST.findall(content(PAGE)):
        yield False, f"{PAGE} has decision {number} as an item of a list; begin it with **{number}. "


def cited_numbers(name: str) -> list[int]:
    """The numbers of decisions that a file cites."""
    form = CITED_ON_PAGE if name == PAGE else CITED_ELSEWHERE
    cited = " ".join(form.findall(content(name)))
    return sorted(set(map(int, re.findall(r"\d+", cited))))


def citations_exist() -> Verdicts:
    """Each decision that a document, a source or a script cites exists."""
    known_numbers = dict(decisions())
    for name in known_files():
        try:
            cited = cited_numbers(name)
        except UnicodeDecodeError:
            continue
        for number in cited:
            yield number in known_numbers, f"{name} cites decision {number}, which does not exist"


def verdicts() -> Verdicts:
    """The verdicts of all tests of this module."""
    yield from decisions_are_short()
    yield from citations_exist()
