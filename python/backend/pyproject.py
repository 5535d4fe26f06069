"""Reads pyproject.toml: with `tomllib` from Python 3.11 on, and before with a strict reader of its own.

The strict reader knows the forms that pyproject.toml uses: tables, lists of tables, strings without escapes, lists of strings,
booleans and comments. For any other form it raises an error with the line, because a guess could change the package."""
import importlib
import re
from collections.abc import Iterator
from types import ModuleType
from typing import Any, Optional, Union

try:
    tomllib: Optional[ModuleType] = importlib.import_module("tomllib")
except ImportError:
    tomllib = None

# The values are booleans, strings, lists and tables.
Table = dict[str, Any]
# A comment belongs to the end of its line. Two brackets side by side start or end the header of a list of tables.
TOKEN = re.compile(r'[ \t]*(?:#[^\n]*)?(\n|\Z|\[\[|\]\]|[][=,]|"[^"\\\x00-\x1f\x7f]*"|[\w.-]+)', re.A)
KEY = re.compile(r"[\w-]+", re.A)
HEADER = re.compile(r"[\w-]+(\.[\w-]+)*", re.A)


def read(text: str) -> Table:
    """The tables of a TOML file as nested dictionaries."""
    tables: Table = tomllib.loads(text) if tomllib else read_strictly(text)
    return tables


def read_strictly(text: str) -> Table:
    """The same without `tomllib`; ValueError with the line for every form that pyproject.toml does not use."""
    top: Table = {}
    headers: dict[str, str] = {}
    table = top
    for line, words in statements(text):
        try:
            if words[1:2] == ["="] and KEY.fullmatch(words[0]):
                add(table, words[0], value(words[2:]))
            else:
                table = opened(top, headers, words)
        except ValueError as error:
            raise ValueError(f"pyproject.toml, line {line}: {error}") from None
    return top


def statements(text: str) -> Iterator[tuple[int, list[str]]]:
    """The statements as lists of tokens, each with its first line. Only a list of values continues over several lines."""
    line, place, first = 1, 0, 1
    words: list[str] = []
    while place < len(text):
        match = TOKEN.match(text, place)
        if not match:
            raise ValueError(f"pyproject.toml, line {line}: unknown form: {text[place:].splitlines()[0].strip()}")
        place, token = match.end(), match[1]
        first = first if words else line
        if token.strip():
            words.append(token)
        elif words and not (words[1:3] == ["=", "["] and "]" not in words):
            yield first, words
            words = []
        line += token == "\n"
    if words:
        yield first, words


def value(words: list[str]) -> Union[bool, str, list[str]]:
    """The boolean, the string or the list of strings that these tokens are."""
    if words in (["true"], ["false"]):
        return words == ["true"]
    if len(words) == 1 and is_string(words[0]):
        return words[0][1:-1]
    strings, commas = words[1:-1:2], words[2:-1:2]
    if words[:1] + words[-1:] == ["[", "]"] and all(map(is_string, strings)) and set(commas) <= {","}:
        return [string[1:-1] for string in strings]
    raise ValueError(f"unknown form of a value: {' '.join(words)}")


def is_string(word: str) -> bool:
    """Whether a token is a string."""
    return word.startswith('"')


def add(table: Table, key: str, content: Any) -> None:
    """Adds a key, which the table must not have yet."""
    if key in table:
        raise ValueError(f"{key} is there twice")
    table[key] = content


def opened(top: Table, headers: dict[str, str], words: list[str]) -> Table:
    """The table that a header opens. `headers` has the brackets of each earlier header by its name."""
    brackets, name = words[0], words[1] if len(words) == 3 else ""
    if (brackets, words[-1]) not in {("[", "]"), ("[[", "]]")} or not HEADER.fullmatch(name):
        raise ValueError(f"unknown form: {' '.join(words)}")
    *above, last = name.split(".")
    table = top
    for key in above:
        table = inner(table, key)
    before = headers.get(name)
    if before == "[" or before not in (None, brackets):
        raise ValueError(f"the table {name} is there twice")
    headers[name] = brackets
    if brackets == "[":
        return inner(table, last)
    if before is None:
        add(table, last, [])
    new: Table = {}
    table[last].append(new)
    return new


def inner(table: Table, key: str) -> Table:
    """The table of a key in a table, which is made if it is missing."""
    inner_table = table.setdefault(key, {})
    if not isinstance(inner_table, dict):
        raise ValueError(f"{key} is not a table")
    return inner_table
