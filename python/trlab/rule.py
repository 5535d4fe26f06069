"""`python -m trlab.rule FILE.py [NAME] [PARAMETER=VALUE ..]`: write the driver program of a rule in a Python file.

The file is read and not run. Without NAME it has only one rule. See `help(trlab.motion)`."""
from __future__ import annotations

import ast
import sys
from collections.abc import Sequence
from typing import Any, Optional

from ._errors import TrlabError
from ._rules.functions import rules_in

USAGE = "usage: python -m trlab.rule FILE.py [NAME] [PARAMETER=VALUE ..] > FILE.rule"


def value_of(word: str) -> Any:
    """A number, or else the text itself, such as `1/3`."""
    try:
        return ast.literal_eval(word)
    except (SyntaxError, ValueError):
        return word


def main(arguments: Sequence[str]) -> Optional[str]:
    """Write the program of a rule of a file to standard output; the message of an error is returned."""
    names = [argument for argument in arguments if "=" not in argument]
    if not 1 <= len(names) <= 2:
        return USAGE
    try:
        with open(names[0], encoding="utf-8") as file:
            rules = rules_in(file.read(), names[0])
        chosen = names[1:] or list(rules)
        if len(chosen) != 1 or chosen[0] not in rules:
            choices = ", ".join(rules) or "there are none, which need @trlab.motion or change"
            return f"{names[0]}: name one of its rules: {choices}"
        values = dict(argument.split("=", 1) for argument in arguments if "=" in argument)
        sys.stdout.write(rules[chosen[0]](**{name: value_of(argument) for name, argument in values.items()}))
    except (OSError, UnicodeDecodeError, TrlabError) as error:
        return str(error)
    return None


if __name__ == "__main__":
    sys.exit(main(sys.argv[1:]))
