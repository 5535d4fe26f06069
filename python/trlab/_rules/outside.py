"""Python that is not part of a rule, and advice on how to write a rule without it."""
from __future__ import annotations

import ast

# Each of these texts continues a message that begins with the rejected Python in backquotes.
_LATER_TURNS = "is not possible: all turns of a loop are written out, so let an `if` decide what the later ones do"
_NO_MEMORY = "is not possible: a rule has no memory, and changes only its own names"
_ONLY_NUMBERS = "is not a number: a rule has only numbers, each with a name of its own"
_ABOVE = "is not possible inside a rule: write a function with `def` above it, and call that"
_ONE_VALUE = "is not possible: give the value a name above the function, or make it a parameter"

# The advice for each class of `ast`, by its name.
_INSTEAD = {
    "While": "may not end: write `for i in range(n)` with a constant n",
    "Break": _LATER_TURNS,
    "Continue": _LATER_TURNS,
    "Match": "is not possible: write `if`, `elif` and `else`",
    "Assign": "is not possible: assign one name per line",
    "Global": _NO_MEMORY,
    "Nonlocal": _NO_MEMORY,
    "FunctionDef": _ABOVE,
    "Lambda": _ABOVE,
    "NamedExpr": "is not possible: assign the name in a line of its own",
    "Tuple": _ONLY_NUMBERS,
    "List": _ONLY_NUMBERS,
    "Dict": _ONLY_NUMBERS,
    "Set": _ONLY_NUMBERS,
    "JoinedStr": _ONLY_NUMBERS,
    "Subscript": _ONE_VALUE,
    "Attribute": _ONE_VALUE,
    "Div": "is a fraction: write `//`, which rounds down",
    "Pow": "is not possible: write the number itself, or a product",
    "BitAnd": "is not possible: write `and`",
    "BitOr": "is not possible: write `or`",
    "Invert": "is not possible: write `not`",
    "In": "is not possible: write `x == 1 or x == 2`, or `1 <= x <= 2`",
    "NotIn": "is not possible: write `x != 1 and x != 2`",
    "Is": "is not possible: write `==`",
    "IsNot": "is not possible: write `!=`",
}


def instead_of(part: ast.AST, otherwise: str) -> str:
    """The advice for a statement, an expression or an operator."""
    return _INSTEAD.get(type(part).__name__, otherwise)
