"""The rules of the page's Python editor: their programs and their parameters, for which the page has sliders. The text
is read and never run, so a page can only make programs, which the verifier judges."""
from __future__ import annotations

import json
from fractions import Fraction
from typing import Any, Optional

from .._errors import ParameterError, RuleError
from .._rules.functions import PythonRule, rules_in

Answer = dict[str, Any]


def answer(text: bytes) -> bytes:
    """The response to a request of the page, both in JSON; raises `ValueError` if it is not a good one."""
    try:
        return json.dumps(translated(json.loads(text))).encode()
    except (LookupError, TypeError, AttributeError, ArithmeticError, RecursionError) as error:
        raise ValueError(f"{type(error).__name__}: {error}") from None


def translated(request: Answer) -> Answer:
    """The programs of the rules that are `chosen` by their kind, or else the first ones, of a Python `text`, with the
    `values` of parameters by rule. At an error only its `line` (0 if it has none) and its `message`."""
    answer: Answer = {"names": {}, "parameters": [], "budgets": {}}
    try:
        rules = rules_in(request["text"], "your rules")
        for kind in ("motion", "change"):
            names = [name for name, rule in rules.items() if rule.kind == kind]
            chosen = request["chosen"].get(kind)
            name = chosen if chosen in names else next(iter(names), None)
            answer["names"][kind], answer[kind] = names, None
            if name is not None:
                values = _known(request["values"].get(name, {}), rules[name])
                program = rules[name](**values)
                answer[kind], answer["budgets"][name] = program, program.budget
                shown = {**rules[name].parameters, **values}
                sliders = [_slider(rules[name], parameter, value) for parameter, value in shown.items()]
                answer["parameters"] += filter(None, sliders)
    except RuleError as error:
        return {"line": error.line, "message": error.message}
    except ParameterError as error:
        return {"line": 0, "message": str(error)}
    return answer


def _known(values: Answer, rule: PythonRule) -> Answer:
    """The values of parameters that the rule still has."""
    return {name: value for name, value in values.items() if name in rule.parameters}


def _slider(rule: PythonRule, name: str, value: object) -> Optional[Answer]:
    """The slider of a parameter: from 0 to 1 if its default is a fraction, and otherwise whole numbers. None if it is
    not a number."""
    default = rule.parameters[name]
    try:
        number = float(Fraction(str(value)))
    except (ValueError, ZeroDivisionError):
        return None
    is_whole = isinstance(default, int) and not isinstance(default, bool)
    most, step = (max(10, 3 * default), 1) if is_whole else (1, 0.01)
    return {"rule": rule.name, "kind": rule.kind, "name": name, "value": number, "most": most, "step": step}
