"""Is the English of messages and pages plain? Help texts, explanations, the messages of ./trlab, the docstrings of the
Python package, the pages for users and those with a word limit may use few of the words that often replace a noun or a
condition. The pages of each kind, and all pages for users together, must have enough of the words that connect and advise,
and sentences that are neither choppy nor long."""
import ast
import re
from collections.abc import Iterator

from ..command import Verdicts
from .files import content, files_below
from .lengths import MAX_WORDS

# Words that often replace a noun or a condition.
STAND_INS = re.compile(r"\b(?:what|whoever|alone|told|stands?|where)\b", re.I)
MAX_STAND_INS = 5  # per 1000 words
# A comment and a string in a source of a crate, and a message of a shell script.
COMMENT = re.compile(r"//[^\n]*")
LITERAL = re.compile(r'"((?:[^"\\]|\\.)*)"', re.S)
MESSAGE = re.compile(r'\b(?:say|fail|echo) "([^"]*)"')
DOCUMENTED = ast.Module, ast.ClassDef, ast.FunctionDef
# The pages of each kind. Together they may not have fewer connecting words per 1000 than half of the share in Python's
# language reference.
GUIDES = "TUTORIAL CHEATSHEET FAQ MODELS PROGRAMS PYTHON STUDIES LAB SPEED COURSE LAWS_BY_EXAMPLE".split()
REFERENCES = "LAWS VERIFIER FILES RELIABILITY ERRORS GLOSSARY".split()
STUDIES = "studies studies/1992 studies/1996 studies/1998 studies/exact studies/paper studies/triangle".split()
MAINTAINERS = "ARCHITECTURE BOOK CALLS DECISIONS EMBEDDING EXTENDING GLOSSARY GUARANTEES README".split()
PAGES_FOR_USERS = {
    "guides": ["README.md", *(f"docs/{name}.md" for name in GUIDES), "examples/README.md", "node/README.md"],
    "references": [f"docs/{name}.md" for name in REFERENCES],
    "studies": [f"{name}/README.md" for name in STUDIES],
}
KINDS = {
    **PAGES_FOR_USERS,
    "pages for users": [page for pages in PAGES_FOR_USERS.values() for page in pages],
    "pages for maintainers": [f"docs/dev/{name}.md" for name in MAINTAINERS],
}
PAGES = [*KINDS["pages for users"], "cases/README.md"]
CONNECTING = {"can": 2.2, "when": 2.0, "will": 1.45, "should": 1.3, "but": 0.8}
MIN_MEAN_SENTENCE, MAX_MEAN_SENTENCE = 14, 20  # words
# Parts of a page that are not sentences; where a paragraph or an item begins; and where a sentence does.
NO_SENTENCES = re.compile(r"^```.*?^```$|<!-- .*? -->.*?<!-- end -->|^ *(?:\||!\[|<img|#).*?$|\]\([^)]*\)", re.M | re.S)
PARAGRAPH = re.compile(r"\n\s*\n|\n(?= *(?:- |\d+\. ))")
SENTENCE = re.compile(r"(?<=[.!?:])\s+(?=[A-Z`*\"\[])")
# Blocks, code, links, and headings, which may be questions.
NO_PROSE = re.compile(r"^```.*?^```$|`[^`]*`|\]\([^)]*\)|^#[^\n]*$", re.M | re.S)


def literals(path: str) -> str:
    """The strings of a source."""
    return " ".join(LITERAL.findall(COMMENT.sub("", content(path))))


def docstrings(path: str) -> str:
    """The docstrings of a Python file."""
    texts = (ast.get_docstring(node) for node in ast.walk(ast.parse(content(path))) if isinstance(node, DOCUMENTED))
    return " ".join(text for text in texts if text)


def texts() -> Iterator[tuple[str, str]]:
    """Each text that users read, by its name."""
    yield "the help texts", literals("crates/trlab_command_line/src/help.rt")
    sources = [*files_below("crates/trlab_messages/src", ".rt"), *files_below("crates/trlab_explain/src", ".rt")]
    yield "the explanations", " ".join(map(literals, sources))
    yield "the docstrings of python/trlab", " ".join(map(docstrings, files_below("python/trlab", ".py")))
    yield "the messages of ./trlab", " ".join(MESSAGE.findall(content("trlab")))
    for page in sorted({*PAGES, *MAX_WORDS}):
        yield page, NO_PROSE.sub(" ", content(page))


def sentences(text: str) -> Iterator[list[str]]:
    """The words of each sentence of a page, without tables and blocks."""
    for paragraph in PARAGRAPH.split(NO_SENTENCES.sub("", text)):
        for sentence in SENTENCE.split(" ".join(paragraph.split())):
            if len(words := sentence.split()) > 2:
                yield words


def words_in(sentence_words: list[list[str]]) -> list[str]:
    """All words of sentences in lower case, without marks of punctuation."""
    text = " ".join(" ".join(words) for words in sentence_words)
    return re.findall(r"[a-z][\w'-]*", text.lower())


def pages_are_connected() -> Verdicts:
    """Whether the pages of each kind together have enough of each connecting word, and the mean length of their sentences."""
    for kind, pages in KINDS.items():
        all_sentences = [words for page in pages for words in sentences(content(page))]
        words = words_in(all_sentences)
        for word, minimum in CONNECTING.items():
            share = 1000 * words.count(word) / len(words)
            message = f"the {kind} have only {share:.1f} {word!r} per 1000 words: give reasons, contrasts and advice"
            yield share >= minimum, message
        mean = sum(map(len, all_sentences)) / len(all_sentences)
        is_right = MIN_MEAN_SENTENCE <= mean <= MAX_MEAN_SENTENCE
        yield is_right, f"the sentences of the {kind} have {mean:.1f} words on average"


def verdicts() -> Verdicts:
    """For each text whether it has few of these words, and their share."""
    yield from pages_are_connected()
    for name, text in texts():
        share = 1000 * len(STAND_INS.findall(text)) / len(text.split())
        yield share <= MAX_STAND_INS, f"{name}: {share:.1f} of 1000 words match STAND_INS of plain.py"
