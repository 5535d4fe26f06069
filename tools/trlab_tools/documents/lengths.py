"""Is each page short, in the index of the pages, and written in short lines and in modern English?"""
import re
from collections.abc import Iterator

from ..command import Verdicts
from .files import FENCED, content, documents

# Pages grow with every change, and each sentence seems useful. When a page comes to its limit, somebody should read it as a
# whole: what another page says goes, and otherwise the limit rises. No page is cut for its limit.
MAX_WORDS = {
    "CHANGELOG.md": 1900,
    "CONTRIBUTING.md": 2280,
    "README.md": 1330,
    "docs/CHEATSHEET.md": 730,
    "docs/COURSE.md": 2130,
    "docs/ERRORS.md": 1760,
    "docs/FAQ.md": 950,
    "docs/FILES.md": 2450,
    "docs/GLOSSARY.md": 780,
    "docs/LAB.md": 1950,
    "docs/LAWS.md": 4280,
    "docs/LAWS_BY_EXAMPLE.md": 400,
    "docs/MODELS.md": 2030,
    "docs/PROGRAMS.md": 2650,
    "docs/PYTHON.md": 2780,
    "docs/README.md": 310,
    "docs/RELIABILITY.md": 1800,
    "docs/SPEED.md": 630,
    "docs/STUDIES.md": 2700,
    "docs/TUTORIAL.md": 1440,
    "docs/VERIFIER.md": 1020,
    "docs/dev/ARCHITECTURE.md": 2050,
    "docs/dev/CALLS.md": 760,
    "docs/dev/BOOK.md": 1380,
    "docs/dev/DECISIONS.md": 3520,
    "docs/dev/EMBEDDING.md": 520,
    "docs/dev/EXTENDING.md": 1250,
    "docs/dev/GLOSSARY.md": 470,
    "docs/dev/GUARANTEES.md": 5550,
    "docs/dev/README.md": 60,
}
# For pages with many blocks, which do not count.
MAX_WORDS_OUTSIDE_BLOCKS = {"README.md": 1000, "docs/TUTORIAL.md": 980, "docs/CHEATSHEET.md": 640, "docs/FAQ.md": 850}
INDEX = "docs/README.md"
MAX_CHARACTERS = 110  # of a line
MAX_INDENT = 5  # a paragraph is in a list within a list at most
# The part of a page that a script writes.
WRITTEN_BY_A_SCRIPT = re.compile(r"<!-- .*? -->.*?<!-- end -->", re.S)
# A row of a table, a figure or a comment is one line.
ONE_LINE = re.compile(r" *(?:\||!\[|<!--|<img )")
OLD_FORMS = re.compile(
    r"\b(?:want of|front of a|in vain|dearer|dearest|(?<!there )(?:is|are|was|were) none(?! of)|but for|so it is with|"
    r"upon|whence|hence|thereof|hereby|shall)\b"
)


def pages_are_short() -> Verdicts:
    """Each page keeps to its word limit. Bars of tables count, as with `wc -w`, but tables that a script writes do not."""
    for page, maximum in MAX_WORDS.items():
        words = len(WRITTEN_BY_A_SCRIPT.sub("", content(page)).split())
        yield words <= maximum, f"{page} has {words} words, but the limit is {maximum}"
    for page, maximum in MAX_WORDS_OUTSIDE_BLOCKS.items():
        words = len(FENCED.sub("", content(page)).split())
        yield words <= maximum, f"{page} has {words} words outside its blocks, and may have {maximum} at most"


def index_has_all_pages() -> Verdicts:
    """Each page of docs/ is in the index by task, and has a word limit."""
    for name in documents():
        if name.startswith("docs/") and name != INDEX:
            link = f"]({name.removeprefix('docs/')})"
            yield link in content(INDEX), f"{INDEX} has no link to {name}"
            yield name in MAX_WORDS, f"lengths.py has no word limit for {name}"


def prose(name: str) -> Iterator[tuple[int, str]]:
    """The lines of text of a document with their numbers, without blocks and tables."""
    is_in_block = False
    for number, line in enumerate(content(name).split("\n"), 1):
        is_fence = line.lstrip().startswith("```")
        if not is_in_block and not is_fence and not ONE_LINE.match(line):
            yield number, line
        if is_fence:
            is_in_block = not is_in_block


def is_wide(line: str) -> bool:
    """Whether a line is too long, or indented too far."""
    indent = len(line) - len(line.lstrip())
    return len(line) > MAX_CHARACTERS or indent > MAX_INDENT


def lines_are_short() -> Verdicts:
    """No line of text is wide."""
    for name in documents():
        wide_lines = [number for number, line in prose(name) if is_wide(line)]
        message = f"{name}, lines {wide_lines}: over {MAX_CHARACTERS} characters, or indented by over {MAX_INDENT}"
        yield not wide_lines, message


def english_is_of_today() -> Verdicts:
    """No line of text has a word of OLD_FORMS."""
    for name in documents():
        old_words = {number: match[0] for number, line in prose(name) if (match := OLD_FORMS.search(line))}
        yield not old_words, f"{name} has old English, by lines: {old_words}"


def verdicts() -> Verdicts:
    """The verdicts of all tests of this module."""
    yield from pages_are_short()
    yield from index_has_all_pages()
    yield from lines_are_short()
    yield from english_is_of_today()
