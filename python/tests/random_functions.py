"""Random functions of the subset of `trlab.motion` and `trlab.change`, and two ways to evaluate them: Python runs the
function itself, and a small interpreter runs its program. Both are written from docs/PROGRAMS.md, and not from the
translation."""
import ast
import functools
import operator
import random
import re
from collections.abc import Callable
from fractions import Fraction
from typing import Any, Optional, Union

from tests.expected import ALWAYS
from trlab import RuleError
from trlab._rules.functions import rules_in

WORDS = 16  # the random words of a car in a step
MAX_CELLS = 100000  # of a lane
# What a car sees, by the names of a program's inputs.
View = dict[str, Any]
JUMPS: dict[str, Callable[..., Any]] = {
    "jump": lambda: True, "jlt": operator.lt, "jle": operator.le,
    "jtrue": lambda flag: flag, "jfalse": lambda flag: not flag,
}
INSTRUCTIONS: dict[str, Callable[..., Any]] = {
    "num": int, "copy": lambda value: value,
    "add": operator.add, "sub": operator.sub, "mul": operator.mul, "div": operator.floordiv,
    "min": min, "max": max,
    "not": operator.not_, "and": lambda first, second: first and second, "or": lambda first, second: first or second,
}
CONSTANT_PROBABILITIES = ("0", "1", "0.5", "0.25", "'1/3'")
PROBABILITIES = (
    *CONSTANT_PROBABILITIES, "p", "1 - p", "0.9 if car.speed == 0 else 0.1", "p if car.gap < 3 else 0",
)
# Errors that a function of the subset may have.
EXPECTED = (
    "may be below 0", "may be more than", "may be above", "side cell is occupied", "at most 128",
    "more than eight registers", "one draw too many", "which another draw uses too",
)

# Statements with one feature each; `|` ends a line. {n} is a number, {c} a condition, {k} a constant above 0, {p} a
# probability, {q} a constant probability, {t} the number of turns of a loop.
MOTIONS = """
v = {n} + {n}
v = {n} - {n}
v = {n} - ({n} - {n})
v = {n} - {k} + {n}
v = -({n} - {k})
v = -{n} - {n}
v = {n} * {k}
v = ({n} - {n}) * {t} + {n}
v = -{k} * ({n} - {k})
v = ({n}) // {k}
v = ({n} - {n}) // {k}
v = ({n} - {n}) // {k} + {k}
v = ({n}) % {k}
v = ({n} - {n}) % {k}
v = min({n}, {n} - {n}, {n})
v = max({n} - {n}, {n} - {n})
v = max({n} - {k}, -{k}) + {k}
v = abs({n} - {n})
v = {n} if {c} else {n} - {n}
v = {n} - {k} if {c} else {n}
v = ({c}) + ({c}) + ({c})
v = {k} * ({c})
v = {c} and {n}
v = {n} - {k} or {n}
v = {n} and {c}
v = ({c}) or ({n} - {k})
v = {n}|v -= {n}
v = {n}|v -= {k}|v += {k}
v = {n} - {k}|v = -v
v = {n} - {k}|v = -1 * v|v = v + {k}
v = {n}|if v > {k}:|    v -= {k}
v = {n}|if v >= {k}:|    v -= {k}|else:|    v = {n} - {n}
v = {n}|w = {n}|if v > w:|    v = v - w|elif v < w:|    v = w - v
v = {n}|w = v|v += 1|v = v + w
u = {n}|u -= {k} + u|v = -(u + u)
u = {n} - {n}|v = {n}
v = {n}|if {c}:|    v = {n} - {n}|if {c}:|    v = v + {n}
v = {c}|if {c}:|    v = {n}
b = {c}|v = {n} if b else {n}|b = not b|v += b
b = {c}|a = b and {c}|v = {k} * b + a
b = {c}|a = b|b = {c}|v = a + {k} * b
b = car.draw({p})|a = b or {c}|v = b + {k} * a
b = car.draw({p})|a = b and {c}|v = b + {k} * a
b = car.draw({p})|v = b and {n}
v = 0|for i in range({t}):|    if {n} > i:|        v += {k}
v = {n}|for i in range({t}):|    v = max(v - i, {n})
v = 0|for i in range({t}):|    for j in range(1, 3):|        v += i * j - 1
v = 0|for i in range({t}):|    if car.draw({p}):|        v += {k}
v = 0|for i in range({t}, -2, -1):|    v += i|    v = max(v, {n})
v = {n}|for i in range(1, {k} + 3, 2):|    v -= i * {k}
v = {n} - {n}|v //= {k}|v *= -{k}|v %= {k}
v = {n}|v = -v if {c} else v + {k}
v = {c} if {c} else {n}
v = {k} if car.draw({p}) else {n}
v = (car.draw({p}) + car.draw({p})) * {k}
v = 5|if {c} and car.draw({p}) or car.draw({p}):|    v = {n}
v = 5|if not ({c}):|    v = {k}
v = {k} if {n} - {k} <= {n} else 0
v = {k} if {n} - {n} == {n} - {k} else 0
v = {k} if {n} - {n} != 0 else 0
v = {k} if {k} <= {n} < {n} - {k} else 0
v = {k} if {n} - {k} else 0
v = {k} if {c} else 1 if {c} else 0
v = car.safe({n} - {k}) + car.safe({n})
v = helper(car, {n})
v = helper(car, {n} - {k}, y={k}) + helper(car, {n})
v = {n} - helper(car, {n}, {k})
v = {k} if clear(car, {n}) else 0
v = {n}|if clear(car, {n}) and {c}:|    v = v + {k}
""".strip().split("\n")
CHANGES = """
v = {c}
v = car.side and {c}
v = {c} and car.side
v = car.side|v = v and {c} and car.draw({p})
v = not car.side
v = car.side and car.sidegap - {k} > {n}
v = car.side or {c}
w = car.gap < {n}|v = w and car.side
w = car.side and car.sidegap > {n}|v = w and {c}
w = car.side|w = not w|v = not w and {c}
w = car.lane == 0|v = car.side if w else car.side and {c}
v = car.side|if {c}:|    v = 0
v = car.draw({p}) and car.side
v = car.side and clear(car, {n})
v = car.sideback - helper(car, {n}) >= {k}
""".strip().split("\n")
HELPERS = """
def helper(car, x, y=2):
    return x - y
def helper(car, x, y=2):
    if x > y:
        return x - y
    return {n}
def helper(car, x, y=2):
    v = x
    for i in range(y):
        v = v - {n}
        if v < 0:
            return v
    return v
def helper(car, x, y=2):
    x = x + {n}
    return inner(car, x) + inner(car, {n})
def helper(car, x, y=2):
    return x if car.draw({q}) else inner(car, y)
def helper(car, x, y=2):
    return {c}
"""
INNER = """
def inner(car, x):
    return 1 - x
def inner(car, x):
    if car.draw({q}):
        return x
    return {n} - x
def inner(car, x):
    return x and {n}
"""
CLEARS = """
def clear(car, x, y=3):
    return {c} and x > y
def clear(car, x, y=3):
    if x < y:
        return False
    return {c}
def clear(car, x, y=3):
    return not car.draw({q})
def clear(car, x, y=3):
    return x - y
"""


def _functions_in(text: str) -> list[str]:
    """The functions of a text, one after the other."""
    return [f"def {part}".rstrip("\n") for part in text.split("\ndef ")[1:]]


class Writer:
    """Writes a random function of a kind, "motion" or "change"."""

    def __init__(self, dice: random.Random, kind: str) -> None:
        self.dice = dice
        self.kind = kind
        # Either all draws of a function have `word=`, or none.
        self.has_words = dice.random() < 0.4
        self.draws = 0
        # How often the present loop runs: one draw in it counts for this number of draws.
        self.turns = 1
        # The local names that have a value here: those with numbers, and those with conditions.
        self.numbers: list[str] = []
        self.flags: list[str] = []
        # Whether the function may call `helper` and `clear`.
        self.has_helpers = False
        # The constants that only the present function has.
        self.own = ["g", "g + 1", "-1", "MARGIN"]

    def text(self) -> str:
        """A module with the function `f`, and with the helpers that it calls."""
        write = self.small if self.dice.random() < 0.8 else self.large
        function = write()
        helpers = self.helpers() if "helper(" in function or "clear(" in function else []
        return "\n".join(["MARGIN = 4", *helpers, f"@{self.kind}", "def f(car, g=2, p=0.25):", function, ""])

    def helpers(self) -> list[str]:
        """The functions `inner`, `helper` and `clear`."""
        self.numbers, self.flags = ["x"], []
        self.has_helpers, self.own = False, ["MARGIN"]
        inner = self.filled(self.dice.choice(_functions_in(INNER)))
        self.own = ["y", "y + 1", "MARGIN"]
        return [inner, *(self.filled(self.dice.choice(_functions_in(text))) for text in (HELPERS, CLEARS))]

    def filled(self, text: str) -> str:
        """A template with its holes filled."""
        holes: dict[str, Callable[[], str]] = {
            "n": lambda: self.number(self.dice.choice([0, 0, 1])),
            "c": lambda: self.condition(self.dice.choice([0, 1])),
            "k": lambda: self.dice.choice(["1", "2", "3", "5", "g"]),
            "t": lambda: self.dice.choice(["0", "1", "2", "3", "g"]),
            "p": lambda: self.dice.choice(PROBABILITIES) + self.word(),
            "q": lambda: self.dice.choice(CONSTANT_PROBABILITIES) + self.word(),
        }
        return re.sub("{([nckpqt])}", lambda hole: holes[hole[1]](), text)

    def word(self) -> str:
        """The argument `word` of a draw, or nothing."""
        return f", word={self.dice.randrange(WORDS)}" if self.has_words else ""

    def small(self) -> str:
        """A body of one or two statements with one feature each."""
        without_safe = [template for template in MOTIONS if "safe" not in template]
        kinds = MOTIONS if self.kind == "motion" else [*CHANGES, *CHANGES, *without_safe]
        lines = []
        for _ in range(self.dice.choice([1, 1, 1, 2])):
            lines += self.filled(self.dice.choice(kinds)).split("|")
            self.numbers = ["v"]
        if self.kind == "change":
            returned = self.dice.choice(["v", "v", "car.side and v", "car.side and v > 1", "v and car.side", "not v"])
        else:
            # `v + 5` is often above the gap and the limit, so that `safe` has to reduce it.
            returned = self.dice.choice(
                3 * ["car.safe(v)"] + [
                    "car.safe(v + 5)", "min(v, car.gap, car.limit)", "max(min(v, car.limit, car.gap), 0)"
                ]
            )
        return "\n".join(f"    {line}" for line in [*lines, f"return {returned}"])

    def constant(self) -> str:
        """A number, or the name of one."""
        return self.dice.choice(["0", "1", "1", "2", "3", "5", "7", "40", *self.own])

    def seen(self) -> str:
        """A number that the car sees."""
        inputs_of_change = ["sidegap", "sideback", "lane"] * 2 if self.kind == "change" else []
        return "car." + self.dice.choice(
            ["speed", "limit", "gap", "headspeed", "speed", "gap", "limit", *inputs_of_change]
        )

    def draw(self) -> str:
        """A draw, unless too many words would be drawn."""
        if self.draws + self.turns > WORDS:
            return "car.gap > 2"
        self.draws += self.turns
        # Helpers have no parameter `p`.
        probability = self.dice.choice(PROBABILITIES if "g" in self.own else CONSTANT_PROBABILITIES)
        return f"car.draw({probability}{self.word()})"

    def number(self, depth: int) -> str:
        """An expression for a number, in which operations are nested up to `depth` times."""
        if depth <= 0 or self.dice.random() < 0.2:
            return self.simple_number()
        first, second = self.number(depth - 1), self.number(depth - 1)
        by = self.dice.choice(["2", "3", "MARGIN"])
        forms = [
            f"{first} + {second}", f"({first} - {second})", f"({first} - {second})",
            f"max({first} - {second}, {self.dice.choice('001')})",
            f"min({first}, {second})", f"max({first}, {second}, {self.number(depth - 1)})",
            f"({first}) // {by}", f"({first}) % {by}", f"({first}) * {by}",
            f"{self.dice.choice(['2', '-1', '3'])} * ({first})", f"abs({first})", f"-({first})",
        ]
        if self.dice.random() < 0.25:
            condition = self.condition(depth - 1)
            forms = [
                f"({first} if {condition} else {second})", f"({condition})", f"max({first} - ({condition}), 0)",
                f"({first} and {second})", f"({first} or {second})",
            ]
        elif self.has_helpers and self.dice.random() < 0.15:
            forms = [f"helper(car, {first})", f"helper(car, {first}, {by})"]
        return self.dice.choice(forms)

    def simple_number(self) -> str:
        """A number without an operation."""
        choice = self.dice.random()
        if self.numbers and choice < 0.45:
            return self.dice.choice(self.numbers)
        return self.seen() if choice < 0.8 else self.constant()

    def sign(self) -> str:
        """A comparison."""
        return self.dice.choice(["<", "<=", ">", ">=", "==", "!="])

    def condition(self, depth: int) -> str:
        """A condition, in which operations are nested up to `depth` times."""
        choice, sign = self.dice.randrange(10), self.sign
        if depth > 0 and choice < 3:
            first, second = self.condition(depth - 1), self.condition(depth - 1)
            both = f"({first} and {second})"
            return self.dice.choice([both, f"({first} or {second})", f"not {first}", both])
        if choice == 3 and ("g" in self.own or self.has_words):
            return self.draw()
        if choice == 4 and self.flags:
            return self.dice.choice(self.flags)
        if choice == 5 and self.kind == "change":
            return "car.side"
        if choice == 6:
            return f"{self.number(depth - 1)} {sign()} {self.number(depth - 1)} {sign()} {self.number(depth - 1)}"
        if choice == 7 and self.dice.random() < 0.3:
            return f"({self.condition(depth - 1)} if {self.condition(depth - 1)} else {self.condition(depth - 1)})"
        if choice == 8 and self.has_helpers:
            return f"clear(car, {self.number(depth - 1)})"
        return f"{self.number(depth - 1)} {sign()} {self.number(depth - 1)}"

    def large(self) -> str:
        """A body of several statements, with decisions and a loop."""
        self.has_helpers = self.dice.random() < 0.4
        return "\n".join([*self.block(1, 2, self.dice.choice([1, 2, 3, 4])), f"    return {self.result()}"])

    def block(self, indent: int, depth: int, count: int) -> list[str]:
        """The lines of `count` statements, in which decisions are nested up to `depth` times."""
        lines: list[str] = []
        before = (list(self.numbers), list(self.flags))
        for _ in range(count):
            choice = self.dice.randrange(10)
            if choice < 4 or not depth:
                lines.append("    " * indent + self.assigned_number())
            elif choice == 4:
                lines.append("    " * indent + self.assigned_flag())
            elif choice == 5 and self.turns == 1 and self.draws < 8:
                lines += self.loop(indent)
            else:
                lines += self.decision(indent, depth)
        if indent > 1:
            # Names that only this block assigns may have no value after it.
            self.numbers, self.flags = before
        return lines

    def assigned_number(self) -> str:
        """An assignment of a number."""
        name = self.dice.choice("vwu")
        sign = self.dice.choice(["+=", "-=", "="]) if name in self.numbers else "="
        line = f"{name} {sign} {self.number(2)}"
        if name not in self.numbers:
            self.numbers.append(name)
        return line

    def assigned_flag(self) -> str:
        """An assignment of a condition."""
        name = self.dice.choice("abv" if "v" in self.numbers else "ab")
        line = f"{name} = {self.condition(2)}"
        if name not in self.flags:
            self.flags.append(name)
        return line

    def loop(self, indent: int) -> list[str]:
        """The lines of a loop."""
        self.turns = self.dice.choice([1, 2, 3])
        self.numbers.append("i")
        head = "    " * indent + f"for i in range({self.turns}):"
        lines = [head, *self.block(indent + 1, 0, self.dice.choice([1, 2]))]
        self.numbers.remove("i")
        self.turns = 1
        return lines

    def decision(self, indent: int, depth: int) -> list[str]:
        """The lines of a statement `if`."""
        pad = "    " * indent
        lines = [f"{pad}if {self.condition(2)}:", *self.block(indent + 1, depth - 1, self.dice.choice([1, 2]))]
        if self.dice.random() < 0.15:
            lines.append(f"{pad}    return {self.result()}")
        if self.dice.random() < 0.5:
            head = "else" if self.dice.random() < 0.7 else f"elif {self.condition(1)}"
            lines += [f"{pad}{head}:", *self.block(indent + 1, depth - 1, 1)]
        return lines

    def result(self) -> str:
        """The expression that is returned."""
        if self.kind == "change":
            return self.dice.choice(["car.side and ", "car.side and ", ""]) + self.condition(2)
        value = self.number(2)
        forms = [
            f"car.safe({value})", f"min({value}, car.gap, car.limit)", f"max(min({value}, car.limit, car.gap), 0)",
            f"car.safe({value} + 5)", f"car.safe(({value}) % 7)", f"min(abs({value}), car.gap, car.limit)",
        ]
        return self.dice.choice(3 * forms + [value])


class Numbered(ast.NodeTransformer):
    """Gives each draw its random word: counted in the order in which Python evaluates the text, with the turns of loops
    and the texts of called functions written out. A function gets the first word of its draws as a parameter `at`."""

    def __init__(self, draws: dict[str, int], constants: dict[str, object]) -> None:
        # The number of draws of each function above.
        self.draws = draws
        self.constants = constants
        # The draws before the present place, in the first turn of each loop around it.
        self.count = 0
        # What is added in later turns: a sum that Python evaluates.
        self.later_turns = ""

    def visit_For(self, node: ast.For) -> ast.AST:
        values = eval(compile(ast.Expression(node.iter), "turns", "eval"), {"range": range}, dict(self.constants))
        count_before, later_turns_before = self.count, self.later_turns
        name = ast.unparse(node.target)
        # The number of draws in a turn is known only after the body, so that a name is used for it until then.
        draws_per_turn = f"PER_{name}_{node.lineno}"
        turn = f"[{', '.join(map(str, values))}].index({name})"
        self.later_turns = f"{later_turns_before} + {turn} * {draws_per_turn}"
        node.body = [self.visit(part) for part in node.body]
        draws_of_turn = self.count - count_before
        for part in ast.walk(ast.Module(node.body, [])):
            if isinstance(part, ast.Name) and part.id == draws_per_turn:
                part.id = f"({draws_of_turn})"
        self.count = count_before + draws_of_turn * len(values)
        self.later_turns = later_turns_before
        return node

    def visit_Call(self, node: ast.Call) -> ast.AST:
        self.generic_visit(node)
        name = ast.unparse(node.func).rpartition(".")[2]
        if name == "draw" and not node.keywords:
            node.keywords = [ast.keyword("count", self.now())]
            self.count += 1
        elif name in self.draws:
            node.keywords.append(ast.keyword("at", self.now()))
            self.count += self.draws[name]
        return node

    def now(self) -> ast.expr:
        """The number of draws before the present place."""
        return ast.parse(f"at + {self.count}{self.later_turns}", mode="eval").body


def called_by_python(text: str, kind: str, given: dict[str, Any]) -> Callable[[Any], Any]:
    """The result of a function for a view, as Python calculates it."""
    tree = ast.parse(text)
    draws: dict[str, int] = {}
    for node in tree.body:
        if isinstance(node, ast.FunctionDef):
            number_draws(node, draws, given if node.name == "f" else {})
    # The decorators return the function itself.
    names: dict[str, Any] = {"motion": lambda function: function, "change": lambda function: function}
    exec(compile(ast.unparse(ast.fix_missing_locations(tree)), "a function", "exec"), names)
    return lambda view: names["f"](Car(view, kind), **given)


def number_draws(function: ast.FunctionDef, draws: dict[str, int], given: dict[str, Any]) -> None:
    """Give each draw of a function its random word, and note the number of its draws among those of all functions."""
    arguments = function.args
    with_defaults = arguments.args[len(arguments.args) - len(arguments.defaults):]
    values = map(ast.literal_eval, arguments.defaults)
    defaults = {argument.arg: value for argument, value in zip(with_defaults, values)}
    numbered = Numbered(draws, {"MARGIN": 4, **defaults, **given})
    function.body = [numbered.visit(statement) for statement in function.body]
    draws[function.name] = numbered.count
    arguments.kwonlyargs.append(ast.arg("at"))
    arguments.kw_defaults.append(ast.Constant(0))


class Car:
    """A car in a view, when Python itself calls a function."""

    def __init__(self, view: Any, kind: str) -> None:
        self.view, self.kind = view, kind

    def __getattr__(self, name: str) -> Any:
        return self.view[name]

    def draw(self, probability: Any, count: Optional[int] = None, word: Optional[int] = None) -> bool:
        if word is None:
            assert count is not None
            word = count if self.kind == "motion" else WORDS - 1 - count
        drawn: int = self.view["words"][word]
        return drawn // 2 < round(Fraction(probability) * ALWAYS)

    def safe(self, speed: int) -> int:
        slowest: int = min(speed, self.gap, self.limit)
        return max(0, slowest)


def run_program(program: str, view: View) -> Union[int, bool]:
    """The result of a program for a view: a speed, or whether the car changes lanes."""
    instructions, labels = parsed(program)
    registers: dict[str, int] = {}
    next_instruction = 0
    while True:
        name, *operands = instructions[next_instruction]
        next_instruction += 1
        if name == "go":
            return registers[operands[0]]
        if name in ("cross", "stay"):
            return name == "cross"
        if name in JUMPS:
            *compared, label = operands
            if JUMPS[name](*(registers[register] for register in compared)):
                next_instruction = labels[label]
        else:
            target, *sources = operands
            registers[target] = value_of(name, sources, registers, view)
            assert 0 <= registers[target] < 2**32


def value_of(name: str, sources: list[str], registers: dict[str, int], view: View) -> int:
    """The value that an instruction writes into its first register."""
    if name in INSTRUCTIONS:
        values = [registers[source] if source.startswith("r") else int(source) for source in sources]
        value: int = INSTRUCTIONS[name](*values)
    elif name == "draw":
        word, threshold = map(int, sources)
        value = view["words"][word] // 2 < threshold
    elif name == "side":
        value = view["side"]
    else:
        value = view[sources[0]]
    return value


@functools.lru_cache(maxsize=8)
def parsed(program: str) -> tuple[list[list[str]], dict[str, int]]:
    """The name and the operands of each instruction of a program, and the numbers of the instructions by their
    labels."""
    without_comments = [line.split(";")[0].strip() for line in program.split("\n")[1:]]
    lines = [line for line in without_comments if line]
    labels = {line.split(":")[0]: number for number, line in enumerate(lines) if ":" in line}
    return [line.split(": ")[-1].replace(",", "").split() for line in lines], labels


def random_view(dice: random.Random) -> View:
    """A view of a car: often with small numbers, and sometimes with the largest ones."""
    limit = dice.choice([1, 2, 3, 5, 5, 9, 20, 35])
    is_empty = dice.random() < 0.6

    def cells() -> int:
        small, large = [dice.randrange(50), dice.randrange(50)], [dice.randrange(MAX_CELLS), MAX_CELLS - 1]
        numbers: list[int] = [*range(9), *small, *large]
        return dice.choice(numbers)

    return {
        "limit": limit, "speed": dice.choice([0, limit, dice.randint(0, limit)]),
        "headspeed": dice.choice([0, limit, dice.randint(0, limit)]),
        "gap": cells(), "lane": dice.randrange(2), "side": is_empty, "sidegap": cells() if is_empty else 0,
        "sideback": cells() if is_empty else 0, "words": [dice.getrandbits(32) for _ in range(WORDS)],
    }


class RandomFunction:
    """A random function by its seed: its text and parameters, and its program, or the error."""

    def __init__(self, seed: object) -> None:
        self.dice = random.Random(seed)
        self.kind = self.dice.choice(["motion", "motion", "change"])
        self.text = Writer(self.dice, self.kind).text()
        self.given: dict[str, Any] = {}
        if self.dice.random() < 0.7:
            self.given = {"g": self.dice.choice([1, 2, 3]), "p": self.dice.choice([0, 0.5, 1, 0.7])}
        self.program, self.error = None, None
        try:
            self.program = rules_in(self.text)["f"](**self.given)
        except RuleError as error:
            self.error = str(error)

    def has_other_error(self) -> bool:
        """Whether the error is not one that a function of the subset may have."""
        return self.error is not None and not any(message in self.error for message in EXPECTED)

    def difference(self, views: int) -> Optional[tuple[View, Any, Any]]:
        """The first random view for which the program and the function differ, with both results; None if there is
        none."""
        assert self.program is not None
        by_python = called_by_python(self.text, self.kind, self.given)
        for _ in range(views):
            view = random_view(self.dice)
            expected = by_python(view)
            result = run_program(self.program, view)
            if result != (int(expected) if self.kind == "motion" else bool(expected)):
                return view, expected, result
        return None

    def __str__(self) -> str:
        return f"{self.text}{self.given}\n{self.program or self.error}"
