"""The package trlab as its sources are written: the names that it exports, with their definitions and docstrings."""
import ast
import inspect
import re
from collections.abc import Iterator
from pathlib import Path
from typing import Optional, Union

from .. import TOP

MODULE = TOP / "python" / "trlab"

Function = ast.FunctionDef
# A definition with its docstring.
Definition = tuple[ast.AST, str]
# The definitions of a module, or of several, by name.
Definitions = dict[str, Definition]


def tree(path: Path) -> ast.Module:
    """The syntax tree of a file."""
    return ast.parse(path.read_text("utf-8"))


def assigned_name(node: ast.AST) -> Optional[str]:
    """The name to which a line of a module gives a value, if it does so."""
    if isinstance(node, ast.AnnAssign) and node.value is not None:
        target: ast.expr = node.target
    elif isinstance(node, ast.Assign):
        target = node.targets[0]
    else:
        return None
    return target.id if isinstance(target, ast.Name) else None


def value_in(module: ast.Module, name: str) -> ast.expr:
    """The value that a module gives a name."""
    for node in module.body:
        if isinstance(node, (ast.Assign, ast.AnnAssign)) and assigned_name(node) == name and node.value is not None:
            return node.value
    raise KeyError(name)


def docstring_in(node: Optional[ast.stmt]) -> str:
    """The docstring of a value, which is the statement below it; empty if the statement is something else."""
    if isinstance(node, ast.Expr) and isinstance(node.value, ast.Constant) and isinstance(node.value.value, str):
        return inspect.cleandoc(node.value.value)
    return ""


def definitions_of(path: Path) -> Definitions:
    """Each class, function and named value of a file, with its docstring."""
    definitions: Definitions = {}
    body = tree(path).body
    for node, next_node in zip(body, [*body[1:], None]):
        name = assigned_name(node)
        if isinstance(node, (ast.ClassDef, Function)):
            definitions[node.name] = node, ast.get_docstring(node) or ""
        elif name:
            definitions[name] = node, docstring_in(next_node)
    return definitions


def imported_names(module: ast.Module) -> Iterator[tuple[str, str]]:
    """The modules and the names in the lines `from MODULE import NAME` of a module."""
    for node in module.body:
        if isinstance(node, ast.ImportFrom) and node.module:
            yield from ((node.module, name.name) for name in node.names)


class Package:
    """The names that the package exports, with their definitions. Names of the module `exact` begin with it."""

    def __init__(self) -> None:
        self.overview, self.exact = tree(MODULE / "__init__.py"), tree(MODULE / "exact.py")
        # The names that need a library, by their modules, which are imported when they are first used.
        self.with_libraries: dict[str, list[str]] = ast.literal_eval(value_in(self.overview, "_ANALYSIS"))
        self.known = self.definitions()

    def definitions(self) -> Definitions:
        """All names of all files; if several files have a name, that of the file from which the package exports it."""
        by_module: dict[str, Definitions] = {}
        for path in sorted(MODULE.rglob("*.py")):
            module = ".".join(path.relative_to(MODULE).with_suffix("").parts)
            by_module[module] = definitions_of(path)
        definitions = {name: found for of_module in by_module.values() for name, found in of_module.items()}
        for module, name in imported_names(self.overview):
            if name in by_module.get(module, {}):
                definitions[name] = by_module[module][name]
        for module, names in self.with_libraries.items():
            definitions.update({name: by_module[module][name] for name in names})
        for module, name in imported_names(self.exact):
            definitions[f"exact.{name}"] = by_module[module][name]
        return definitions

    def exported(self) -> set[str]:
        """The names in the lists of both modules, and those that need a library."""
        of_trlab = set(ast.literal_eval(value_in(self.overview, "__all__"))) - {"__version__"}
        of_exact = {f"exact.{name}" for name in ast.literal_eval(value_in(self.exact, "__all__"))}
        return of_trlab.union(of_exact, *self.with_libraries.values())

    def bases(self, node: ast.ClassDef) -> Iterator[ast.ClassDef]:
        """The classes of the package from which a class inherits, itself first."""
        yield node
        for base in node.bases:
            name = ast.unparse(base.value if isinstance(base, ast.Subscript) else base)
            definition = self.known.get(name, (None, ""))[0]
            if isinstance(definition, ast.ClassDef):
                yield from self.bases(definition)

    def members(self, node: ast.ClassDef) -> dict[str, tuple[Function, str]]:
        """The public methods and properties of a class that have a docstring, by name."""
        members: dict[str, tuple[Function, str]] = {}
        for base in self.bases(node):
            for method in methods(base):
                docstring = ast.get_docstring(method)
                if docstring and not method.name.startswith("_"):
                    members.setdefault(method.name, (method, docstring))
        return members

    def fields(self, node: ast.ClassDef) -> list[str]:
        """The arguments with which an object of a class is made."""
        for base in self.bases(node):
            if is_record(base):
                return list(annotated_fields(base))
            for method in methods(base):
                if method.name == "__init__":
                    return list(arguments(method.args))
        return []

    def own_names(self, node: ast.AST) -> set[str]:
        """The names of the parameters, attributes and methods of a definition."""
        if isinstance(node, Function):
            return set(re.findall(r"\w+(?=:)", ", ".join(arguments(node.args))))
        if isinstance(node, ast.ClassDef):
            of_methods = (self.own_names(method) for method, _ in self.members(node).values())
            return set(re.findall(r"\w+(?=:)", ", ".join(self.fields(node)))).union(self.members(node), *of_methods)
        return set()


def methods(node: ast.ClassDef) -> list[Function]:
    """The methods of a class."""
    return [part for part in node.body if isinstance(part, Function)]


def is_record(node: ast.ClassDef) -> bool:
    """Whether the fields of a class are the arguments of its call."""
    words = [ast.unparse(word) for word in (*node.decorator_list, *node.bases)]
    return any(word.startswith(("dataclass", "NamedTuple")) for word in words)


def annotated_fields(node: ast.ClassDef) -> Iterator[str]:
    """The fields of a dataclass or named tuple as the arguments of a call."""
    for field in node.body:
        if isinstance(field, ast.AnnAssign) and not ast.unparse(field.target).startswith("_"):
            yield ast.unparse(field).replace("field(default_factory=dict)", "{}")


def with_default(argument: ast.arg, default: Optional[ast.expr]) -> str:
    """An argument as a signature has it."""
    return ast.unparse(argument) + ("" if default is None else f" = {ast.unparse(default)}")


def arguments(args: ast.arguments) -> Iterator[str]:
    """The arguments of a function, each by itself, without `self` and `cls`."""
    positional = [*args.posonlyargs, *args.args]
    without_default: list[Union[ast.expr, None]] = [None] * (len(positional) - len(args.defaults))
    for number, (argument, default) in enumerate(zip(positional, [*without_default, *args.defaults]), 1):
        if argument.arg not in ("self", "cls"):
            yield with_default(argument, default)
        if number == len(args.posonlyargs):
            yield "/"
    if args.kwonlyargs:
        yield "*"
        yield from map(with_default, args.kwonlyargs, args.kw_defaults)
    if args.kwarg:
        yield f"**{ast.unparse(args.kwarg)}"


def result_of(function: Function) -> str:
    """The type that a function returns, as its signature has it."""
    return f" -> {ast.unparse(function.returns)}" if function.returns else ""
