"""From a function to an accepted program: translate it, verify it, and translate it again with the verdict."""
from __future__ import annotations

from collections.abc import Callable, Mapping
from typing import Any, NamedTuple, NoReturn, Optional, Union

from .emission import Instruction, Place
from .names import Attempt, Car, Frame
from .reading import Function, plain
from .registers import MAX_INSTRUCTIONS, TooLongError, TooManyError, written
from .statements import Translation

MAX_VALUE = 60
"""The most characters of a parameter's value in the title of a program."""

NEGATIVE = 9
"""The verifier's reason for a difference that may be negative."""

_ADVICE = {
    8: "may be above 4294967295, which no register holds: use smaller factors",
    10: "may be more than the gap: take the `min` with `car.gap`, or `return car.safe(..)`",
    11: "may be more than the limit: take the `min` with `car.limit`, or `return car.safe(..)`",
    12: "may be true if the side cell is occupied: begin the condition with `car.side and`",
}


class Refusal(NamedTuple):
    """The instruction that the verifier rejects, from 0, and its reason."""

    pc: int
    reason: int


Verify = Callable[[str], Union[int, Refusal]]
"""The verifier's verdict on a program: its budget, or the rejection."""


class Program(str):
    """The text of a driver program that was a function. `budget` is its maximum number of instructions per car and
    step, `words` are the random words that it uses, and `counted` those of them that got their numbers by their
    order."""

    budget: int
    words: frozenset[int]
    counted: frozenset[int]


def compiled(kind: str, function: Function, named: Mapping[str, Any], verify: Verify) -> Program:
    """The program of a function with these parameters. Raises `RuleError`."""
    last_error: Optional[TooManyError] = None
    for shares in True, False:
        try:
            return _compiled(kind, function, named, verify, Attempt(shares))
        except TooManyError as error:
            last_error = error
    assert last_error is not None
    place, names = last_error.place, ", ".join(last_error.names)
    place.fail(
        f"`{place.text}` needs more than eight registers: calculate fewer values before this line, or some of them "
        f"after it ({names})"
    )


def _compiled(kind: str, function: Function, named: Mapping[str, Any], verify: Verify, attempt: Attempt) -> Program:
    """The program, or `TooManyError` if eight registers do not suffice for this attempt. A translation that shows that
    more variables or differences may be negative is followed by another one."""
    title = _title_of(function, named)
    while True:
        forms_before = attempt.forms()
        translation, place = _translated(kind, function, named, attempt)
        if attempt.forms() > forms_before:
            continue
        try:
            program = written(translation.emitter.items(place))
        except TooLongError as error:
            place.fail(
                f"`{function.node.name}` needs at least {error.count} instructions, and a program has at most "
                f"{MAX_INSTRUCTIONS}: write fewer turns of loops, or a simpler rule"
            )
        text = Program(program.text(kind, title))
        verdict = verify(text)
        if isinstance(verdict, int):
            text.budget, text.words = verdict, frozenset(translation.words)
            text.counted = frozenset(word for word, is_given in translation.words.items() if not is_given)
            return text
        rejected = program.instructions[verdict.pc]
        if verdict.reason != NEGATIVE or rejected.difference is None:
            _explain(rejected, verdict.reason)
        attempt.below.add(rejected.difference)


def _title_of(function: Function, named: Mapping[str, Any]) -> str:
    """The call of a function without the car, as the title of its program."""
    _, *arguments = [f"{name}={_shown(value)}" for name, value in function.bound([Car()], named).items()]
    return f"{function.node.name}({', '.join(arguments)})".encode("ascii", "replace").decode()


def _shown(value: Any) -> str:
    """The value of a parameter, on one line. Addresses of objects would be others in each run."""
    shown = " ".join(repr(plain(value)).split())
    return "?" if " at 0x" in shown or len(shown) > MAX_VALUE else shown


def _translated(kind: str, function: Function, named: Mapping[str, Any], attempt: Attempt) -> tuple[Translation, Place]:
    """One translation, which the verifier has not seen yet, and the place of its constants."""
    translation = Translation(kind, attempt)
    translation.frames.append(Frame(function, None, None))
    place = translation.place(function.node)._replace(text="constants")
    translation.enter(function.bound([Car()], named))
    translation.block(function.node.body)
    if translation.emitter.is_live:
        place.fail(f"`{function.node.name}` can end without `return`: return a value on every path")
    return translation, place


def _explain(rejected: Instruction, reason: int) -> NoReturn:
    """Raises the error of an instruction that the verifier rejects."""
    advice = _ADVICE.get(
        reason,
        f"is rejected by the verifier for reason {reason}: this is an error of the translation, please report it",
    )
    rejected.place.fail(f"`{rejected.place.text}` {advice}")
