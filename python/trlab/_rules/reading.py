"""Functions as they are written: from a function that Python has made, or from a file that is read and not run."""
from __future__ import annotations

import ast
import inspect
import operator
import textwrap
import types
from collections.abc import Callable, Iterator, Mapping
from copy import copy
from functools import partial
from inspect import Parameter, Signature
from typing import Any, NamedTuple, Union

from .._errors import RuleError

DECORATORS = ("motion", "change")

UNKNOWN = object()
"""The value of a name that is known only when the file is run."""

ReadError = (SyntaxError, ValueError, RecursionError, MemoryError)
"""The exceptions of Python for a text that it cannot read: also for zero bytes and thousands of brackets."""


class Function(NamedTuple):
    """A function: its definition, its file, the defaults of its parameters, and `outside`, which returns the value of a
    name outside it, or raises `KeyError`."""

    node: ast.FunctionDef
    file: str
    defaults: Mapping[str, Any]
    outside: Callable[[str], Any]

    def kinds(self) -> list[str]:
        """The kind of rule that its decorator names, if it has one. Raises `RuleError` for other decorators, because
        the function that they make is not the one that is written."""
        names = _decorators(self.node)
        if len(names) > 1 or any(name not in DECORATORS for name in names):
            raise RuleError(
                self.file, self.node.lineno,
                "a rule, or a function that it calls, has no decorators except one `motion` or `change`: remove the "
                "others",
            )
        return names

    def bound(self, values: list[Any], named: Mapping[str, Any]) -> dict[str, Any]:
        """The values of its parameters by name, in their order. Raises `TypeError`, as Python does, if these do not
        fit."""
        arguments = self.node.args
        if arguments.vararg or arguments.kwarg or arguments.posonlyargs:
            raise TypeError("a rule has no parameters with `*` or `/`")

        def parameter(argument: ast.arg, kind: Any) -> Parameter:
            """A parameter with its default, if it has one."""
            return Parameter(argument.arg, kind, default=self.defaults.get(argument.arg, Parameter.empty))

        by_place = [parameter(argument, Parameter.POSITIONAL_OR_KEYWORD) for argument in arguments.args]
        only_by_name = [parameter(argument, Parameter.KEYWORD_ONLY) for argument in arguments.kwonlyargs]
        call = Signature([*by_place, *only_by_name]).bind(*values, **named)
        call.apply_defaults()
        return dict(call.arguments)


class Decorated:
    """A function after its decorator, which keeps the function as it is `written`, because other rules may call it."""

    def __init__(self, written: Function) -> None:
        self.written = written


def plain(value: Any) -> Any:
    """A number of numpy as Python's own, so that equal rules have equal programs, and a whole number never
    overflows."""
    try:
        return value if isinstance(value, bool) else operator.index(value)
    except TypeError:
        return float(value) if isinstance(value, float) else value


def function_of(function: Callable[..., Any]) -> Function:
    """A function that Python has made. Raises `RuleError` if its text cannot be found, or has changed since."""
    try:
        lines, first = inspect.getsourcelines(function)
        file = inspect.getsourcefile(function) or "?"
        node = ast.parse(textwrap.dedent("".join(lines))).body[0]
    except (OSError, TypeError, IndexError, *ReadError):
        code = getattr(function, "__code__", None)
        raise RuleError(
            getattr(code, "co_filename", "?"), getattr(code, "co_firstlineno", 0),
            f"the text of {function!r} was not found: write the rule in a file or a notebook",
        ) from None
    if not isinstance(node, ast.FunctionDef) or not isinstance(function, types.FunctionType):
        raise RuleError(file, first, "a rule is a function that is written with `def`")
    ast.increment_lineno(node, first - 1)
    parameters = inspect.signature(function).parameters.values()
    defaults = {
        parameter.name: parameter.default for parameter in parameters if parameter.default is not parameter.empty
    }
    written = Function(node, file, defaults, partial(_value_outside, function))
    written.kinds()  # raises the error of a wrong decorator
    if not _is_text_of(node, function):
        raise RuleError(file, first, "the file has changed since Python read it: import it again")
    return written


def _value_outside(function: types.FunctionType, name: str) -> Any:
    """The value of a name outside a function: of a surrounding function, or of the module. Raises `KeyError` if it has
    none."""
    cells = dict(zip(function.__code__.co_freevars, function.__closure__ or ()))
    try:
        value = cells[name].cell_contents if name in cells else function.__globals__[name]
    except ValueError:
        # The variable of the surrounding function has no value yet.
        raise KeyError(name) from None
    if isinstance(value, Decorated):
        return value.written
    return function_of(value) if isinstance(value, types.FunctionType) else value


def _is_text_of(node: ast.FunctionDef, function: types.FunctionType) -> bool:
    """Whether Python made the function from this text: the text, compiled again, must have the same code."""
    made_code = function.__code__
    if any(_is_call_elsewhere(part, made_code.co_varnames) for part in ast.walk(ast.Module(node.body, []))):
        return True
    # The text is compiled inside a function that has the variables of the surrounding ones.
    module = ast.parse(f"def around({', '.join(made_code.co_freevars)}): pass")
    bare, around = copy(node), module.body[0]
    assert isinstance(around, ast.FunctionDef)
    bare.decorator_list, bare.name, around.body = [], "_", [bare]
    (text_code,) = _codes_in(compile(module, "rule", "exec", dont_inherit=True), "_")
    return _meaning_of(text_code) == _meaning_of(made_code)


def _meaning_of(code: types.CodeType) -> tuple[object, ...]:
    """All of a function's code that decides what it does."""
    return code.co_code, code.co_names, code.co_varnames, code.co_freevars, repr(code.co_consts)


def _is_call_elsewhere(node: ast.AST, local_names: tuple[str, ...]) -> bool:
    """Whether this is a call such as `numpy.minimum(..)`. Python compiles it in another way if the file imports the
    name. A rule with such a call is rejected anyway."""
    if not isinstance(node, ast.Call) or not isinstance(node.func, ast.Attribute):
        return False
    return getattr(node.func.value, "id", None) not in local_names


def _codes_in(code: types.CodeType, name: str) -> Iterator[types.CodeType]:
    """The code of the functions with this name."""
    for constant in code.co_consts:
        if isinstance(constant, types.CodeType):
            yield from [constant] if constant.co_name == name else _codes_in(constant, name)


def functions_in(text: str, file: str) -> list[Function]:
    """The functions of a Python file, which may use each other, and the numbers and strings that the file gives to
    names."""
    try:
        module = ast.parse(text)
    except ReadError as error:
        line, message = getattr(error, "lineno", None) or 0, getattr(error, "msg", error)
        raise RuleError(file, line, f"this is not Python: {message}") from None
    known: dict[str, Any] = {}
    functions = []
    # Other names may change while the program runs.
    changed = [name for part in ast.walk(module) if isinstance(part, ast.Global) for name in part.names]
    for node in module.body:
        known.update(dict.fromkeys(_names_set_by(node, file), UNKNOWN))
        if isinstance(node, ast.FunctionDef):
            function = Function(node, file, _written_defaults(node, known), known.__getitem__)
            # A function with another decorator is only a problem for a rule that calls it.
            if not _decorators(node) or set(_decorators(node)) & set(DECORATORS):
                known[node.name] = function
                functions.append(function)
        elif isinstance(node, (ast.Assign, ast.AnnAssign)) and node.value is not None:
            targets = node.targets if isinstance(node, ast.Assign) else [node.target]
            known.update((part.id, _literal(node.value, {})) for part in targets if isinstance(part, ast.Name))
        known.update(dict.fromkeys(changed, UNKNOWN))
    return functions


def _decorators(node: ast.FunctionDef) -> list[str]:
    """The names of the decorators, without the module that they come from."""
    decorators = node.decorator_list
    return [node.attr if isinstance(node, ast.Attribute) else getattr(node, "id", "?") for node in decorators]


def _literal(node: ast.AST, known: Mapping[str, Any]) -> Any:
    """The value of a constant, or of a name that is known."""
    if isinstance(node, ast.Name):
        return known.get(node.id, UNKNOWN)
    try:
        return ast.literal_eval(node)
    except (TypeError, *ReadError):
        return UNKNOWN


def _names_set_by(node: Union[ast.stmt, ast.arguments], file: str) -> list[str]:
    """The names that a statement outside of functions may set or delete."""
    if isinstance(node, ast.FunctionDef):
        return [node.name, *_names_set_by(node.args, file)]
    names = []
    for part in ast.walk(node):
        if isinstance(part, ast.Name) and not isinstance(part.ctx, ast.Load):
            names.append(part.id)
        elif isinstance(part, ast.alias):
            names.append((part.asname or part.name).split(".")[0])
        else:
            # Functions, classes, `except .. as name` and patterns of `match`.
            names += [getattr(part, field, None) or "" for field in ("name", "rest")]
    if "*" in names and getattr(node, "module", None) != "trlab":
        raise RuleError(
            file, getattr(node, "lineno", 0),
            "`import *` may change any name: import the names that you need, because the file is read and not run",
        )
    return names


def _written_defaults(node: ast.FunctionDef, known: Mapping[str, Any]) -> dict[str, Any]:
    """The defaults of the parameters, if they are constants."""
    arguments = node.args
    names = [argument.arg for argument in arguments.args][len(arguments.args) - len(arguments.defaults):]
    defaults = dict(zip(names, arguments.defaults))
    for argument, value in zip(arguments.kwonlyargs, arguments.kw_defaults):
        if value is not None:
            defaults[argument.arg] = value
    return {name: _literal(value, known) for name, value in defaults.items()}
