"""Have the decisions about sizes, in docs/dev/DECISIONS.md, the sizes that the sources and the pages have?"""
import glob
import os
from collections.abc import Iterable

from .. import TOP
from ..command import Verdicts
from ..proofs.bodies import read
from .decisions import PAGE as DECISIONS, decisions
from .files import FENCED, content, documents

THOUSAND = 1000
# The crates of the layer "Tests and examples" of crates.txt.
TESTS = "trlab_cases", "trlab_library_tests", "trlab_embedding"


def in_thousands(number: int) -> str:
    """A number, rounded to thousands."""
    return f"{round(number / THOUSAND)},000"


def words(texts: Iterable[str]) -> str:
    """The number of words in texts, as `wc -w` counts them, rounded to thousands."""
    return in_thousands(sum(len(text.split()) for text in texts))


def lines_of(pattern: str) -> list[str]:
    """The lines of the files of crates that match a pattern, without those of tests."""
    files = sorted(glob.glob(os.path.join(TOP, "crates", "*", pattern), recursive=True))
    files_without_tests = [file for file in files if not any(f"/{crate}/" in file for crate in TESTS)]
    return [line for file in files_without_tests for line in read(file).splitlines()]


def size_of_sources() -> str:
    """The words of decision 146 about the lines of sources."""
    return f"have {in_thousands(len(lines_of('src/**/*.rt')))} lines without tests"


def size_of_pages() -> str:
    """The words of decision 163 about all pages."""
    pages = [content(name) for name in documents()]
    blocks = [block for page in pages for block in FENCED.findall(page)]
    tables = [line for page in pages for line in FENCED.sub("", page).splitlines() if line.startswith("|")]
    return f"have {words(pages)} words**, of which {words(blocks)} are in code blocks and {words(tables)} in tables"


def share_of_imports() -> str:
    """The words of decision 164 about imports."""
    lines = lines_of("specs/**/*.antt")
    share = sum(line.startswith("use ") for line in lines) / len(lines)
    return f"Imports are {round(100 * share)} percent of the lines of definitions"


def verdicts() -> Verdicts:
    """Whether each of these decisions has its sizes."""
    texts = {number: " ".join(text.split()) for number, text in decisions()}
    for number, right in (146, size_of_sources()), (163, size_of_pages()), (164, share_of_imports()):
        yield right in texts[number], f"decision {number} in {DECISIONS} has to say: .. {right} .."
