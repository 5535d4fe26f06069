"""The prose of a source: comments, docstrings, titles of cases, names of tests and of wrong bodies, and messages."""
import ast
import io
import os
import re
import tokenize
from collections.abc import Iterator

Remarks = Iterator[tuple[int, str]]
# Comments that begin with `#`, and those that begin with `//` or are between `/*` and `*/`.
HASH = re.compile(r"^\s*#(?!!) ?(.*)$", re.M)
SLASHES = re.compile(r"^\s*(?://[/!]?|/\*+|\*(?= |$)) ?(.*)$", re.M)
COMMENTS = {
    ".antt": re.compile(r"^\s*-- ?(.*)$", re.M),
    # Titles of cases are prose, too.
    ".cases": re.compile(r"^(?:#|==) ?(.*)$", re.M),
    **dict.fromkeys((".awk", ".sh", ".toml"), HASH),
    **dict.fromkeys((".c", ".js", ".mjs", ".rs", ".rt", ".ts"), SLASHES),
}
# The names of wrong bodies and tests, which are prose too.
NAMES = {".edit": re.compile(r"^# (\w+)$", re.M), ".rt": re.compile(r"#\[test\]\s*(?:pub )?fn (\w+)")}
# A string between quotation marks or backticks.
LITERAL = re.compile(r"""(["`])((?:(?!\1)[^\\\n]|\\.)*)\1""")
HAS_MESSAGES = {".js", ".mjs", ".sh"}
# A string is a message if it has four words in a row.
MESSAGE = re.compile(r"[A-Za-z]\w+(?:,? [a-z]+){3}")
# Scripts without an ending name their language in the first line.
FIRST_LINE = re.compile(r"#!.*\b(python3|bash|sh|node)\b")
ENDINGS = {"python3": ".py", "bash": ".sh", "sh": ".sh", "node": ".mjs"}


def kind_of(name: str, text: str) -> str:
    """The usual ending of files in the language of this file."""
    ending, script = os.path.splitext(name)[1], FIRST_LINE.match(text)
    return ENDINGS[script[1]] if script and not ending else ending


def found_by(pattern: re.Pattern[str], text: str) -> Remarks:
    """The line and the last group of each match."""
    for match in pattern.finditer(text):
        group = match.lastindex or 0
        yield text.count("\n", 0, match.start(group)) + 1, match[group]


def patterns_in(tree: ast.AST) -> Iterator[ast.expr]:
    """The texts of regular expressions, which are not prose."""
    for node in ast.walk(tree):
        if isinstance(node, ast.Call) and ast.unparse(node.func).startswith("re."):
            yield from node.args


def of_python(text: str) -> Remarks:
    """The docstrings, messages, comments and names of tests in a Python file."""
    tree = ast.parse(text)
    documents = {node.value for node in ast.walk(tree) if isinstance(node, ast.Expr)}
    patterns = set(patterns_in(tree))
    for node in ast.walk(tree):
        if isinstance(node, ast.Constant) and isinstance(node.value, str):
            is_message = node not in patterns and "\n" not in node.value and MESSAGE.search(node.value)
            if node in documents or is_message:
                yield node.lineno, node.value
        if isinstance(node, ast.FunctionDef) and node.name.startswith("test_"):
            yield node.lineno, node.name.replace("_", " ")
    for token in tokenize.generate_tokens(io.StringIO(text).readline):
        if token.type == tokenize.COMMENT and not token.string.startswith("#!"):
            yield token.start[0], token.string


def remarks(name: str, text: str) -> Remarks:
    """The line and the words of each piece of prose; nothing for files of other kinds."""
    kind = kind_of(name, text)
    if kind == ".py":
        yield from of_python(text)
    if kind in COMMENTS:
        yield from found_by(COMMENTS[kind], text)
    if kind in NAMES:
        yield from ((line, words.replace("_", " ")) for line, words in found_by(NAMES[kind], text))
    if kind in HAS_MESSAGES:
        yield from ((line, words) for line, words in found_by(LITERAL, text) if MESSAGE.search(words))
    # The name of the file is the name of the wrong body.
    if kind == ".edit" and os.path.basename(os.path.dirname(name)) == "must-fail":
        yield 1, os.path.basename(name).removesuffix(kind).replace("_", " ")
