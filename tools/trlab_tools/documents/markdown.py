"""Docstrings, calls and values of Python as Markdown, in lines of a fixed width."""
import ast
import re
import textwrap
from collections.abc import Iterable

WIDTH = 110


def block(lines: str) -> str:
    """Lines of Python as a block of Markdown."""
    return f"```python\n{lines}\n```"


def is_python(text: str) -> bool:
    """Whether an indented block of a docstring is code, and not a formula."""
    try:
        ast.parse(text)
    except SyntaxError:
        return False
    return True


def filled(text: str, indented: int = 0) -> str:
    """A text in lines of the width of the page."""
    return textwrap.fill(text, WIDTH, subsequent_indent=indented * " ", break_on_hyphens=False, break_long_words=False)


def list_of_items(text: str) -> str:
    """A list of a docstring, whose items begin with a hyphen or a number."""
    items = re.split(r"\n(?=- |\d+\. )", text)
    return "\n".join(filled(" ".join(item.split()), len(item.split(" ")[0]) + 1) for item in items)


def paragraph(text: str) -> str:
    """A paragraph or a list of a docstring, or a block of code that is indented in it."""
    if text.startswith("    "):
        lines = textwrap.dedent(text)
        return block(lines) if is_python(lines) else f"```text\n{lines}\n```"
    if re.match(r"(- |\d+\. )", text):
        return list_of_items(text)
    with_powers = re.sub(r"(\d)\*\*(\d)", r"\1\*\*\2", " ".join(text.split()))
    return filled(with_powers)


def prose(text: str) -> str:
    """A docstring as Markdown."""
    parts = re.split(r"\n\n(?=\S)|\n\n(?=    )", text)
    joined: list[str] = []
    for part in filter(str.strip, parts):
        is_code = part.startswith("    ")
        if is_code and joined and joined[-1].startswith("    "):
            joined[-1] += f"\n\n{part}"
        else:
            joined.append(part)
    return "\n\n".join(map(paragraph, joined))


def call(name: str, words: Iterable[str], result: str = "") -> str:
    """A call in one line, or in several if it is long."""
    words = list(words)
    line = f"{name}({', '.join(words)}){result}"
    return line if len(line) <= WIDTH else f"{name}(\n" + "".join(f"    {word},\n" for word in words) + f"){result}"


def value_of(node: ast.expr) -> str:
    """A value in one line, or a dictionary that is too long for one as a block."""
    if len(ast.unparse(node)) <= WIDTH or not isinstance(node, ast.Dict):
        return f"`{ast.unparse(node)}`"
    lines = (f"    {ast.unparse(name)}: {ast.unparse(value)}," for name, value in zip(node.keys, node.values) if name)
    return block("\n".join(["{", *lines, "}"]))
