"""Rules written as Python functions: their programs, and the errors of functions that are not rules."""
import io
import linecache
import math
import os
import tempfile
import unittest
from collections.abc import Callable
from contextlib import redirect_stdout
from fractions import Fraction
from typing import Any, Optional, Protocol, Union

import trlab
from tests.expected import ALWAYS, HALF, QUARTER, THIRD
from tests.random_functions import RandomFunction, View, run_program
from trlab import Job, Nasch, Own, ParameterError, Probability, PythonRule, Rickert, Rule, RuleError, SlowToStart
from trlab import check, random_cells
from trlab._rules.functions import rules_in
from trlab._rules.translating import Program
from trlab.rule import main

STEP_BY = 2
"""A variable of this file, which a function below uses."""

FUNCTIONS = 250
"""The number of random functions that are tried."""

# Bodies of a motion rule that are no programs, each with a part of the message.
OUTSIDE_OF_THE_SUBSET = (
    ("while True:\n    pass", "line 3: `while True:` may not end"),
    ("v = car.gap / 2\nreturn v", "is a fraction: write `//`"),
    ("return car.gap * car.speed", "needs a constant on the right"),
    ("return 0.5 * car.gap", "is 0.5, and a whole number is needed"),
    ("return car.sidegap", "`car.sidegap` is not an input of a motion rule"),
    ("return car.position", "which are speed, limit, gap, headspeed"),
    ("if car.gap > 1:\n    v = 1\nreturn v", "line 5: `v` may have no value here"),
    ("if car.gap > 1:\n    return 0", "can end without `return`"),
    ("return", "`return` needs a value"),
    ("return random.random()", "`random` is unknown here"),
    ("return int(car.gap)", "`int(car.gap)` is not possible: a rule calls min, max, abs, car.draw, car.safe"),
    ("return car.draw(car.gap)", "`car.gap` is not a probability"),
    ("return car.draw(1.5)", "the probability must be between 0 and 1, not 1.5"),
    ("return car.draw(p, word=16)", "0 to 15"),
    ("return car.draw(p, 3)", "write `car.draw(p)`"),
    ("return car.brake(p)", "a motion rule calls car.draw, car.safe, and its inputs have no brackets"),
    ("return car.safe(1, 2)", "needs one number"),
    ("for i in range(car.gap):\n    pass\nreturn 0", "with constants"),
    ("for i in range(10**30):\n    pass\nreturn 0", "with constants"),
    ("for i in range(99999999999999999999):\n    pass\nreturn 0", "at most 64"),
    ("for i in range(0, 9, 0):\n    pass\nreturn 0", "with constants"),
    ("for i in range(1, 2, 3, 4):\n    pass\nreturn 0", "with constants"),
    ("for min in range(2):\n    pass\nreturn min(car.gap, car.limit)", "`min` is known only inside its loop"),
    ("for i in range(65):\n    pass\nreturn 0", "at most 64"),
    ("for i in range(2):\n    pass\nreturn i", "known only inside its loop"),
    ("v = [1]\nreturn 0", "`[1]` is not a number: a rule has only numbers"),
    ("v, w = 1, 2\nreturn 0", "one name per line"),
    ("return car.gap // 0", "divides by 0"),
    ("return car.gap % -2", "divides by -2"),
    ("return car.gap << 1", "+, -, *, // and %"),
    ("return 2 ** car.gap", "a product"),
    ("return ~car.gap", "write `not`"),
    ("return car.safe((car.gap > 1) & (car.gap < 3))", "write `and`"),
    ("v = (car.gap is None)\nreturn 0", "write `==`"),
    ("return car.safe(car.speed in (0, 1))", "write `x == 1 or x == 2`"),
    ("v = w = 1\nreturn 0", "one name per line"),
    ("if (v := car.gap) > 2:\n    return 0\nreturn 0", "in a line of its own"),
    ("for i in range(3):\n    if car.gap > i:\n        break\nreturn 0", "let an `if` decide"),
    ("def half(x):\n    return x // 2\nreturn half(car.limit)", "with `def` above it"),
    ("return car.gap.real", "or make it a parameter"),
    ("return car.gap > 2.0", "is 2.0: write 2"),
    ("return min(car.gap)", "needs two or more numbers"),
    ("min = car.gap\nreturn min(min, car.limit)", "a rule calls min, max, abs"),
    ("return g // (g - 2)", "cannot be calculated"),
    ("return 'a' * 9", "a text is not a number"),
    ("return car.safe(5000000000 + car.gap)", "the greatest is 4294967295"),
    ("return car.safe(" + " + ".join(17 * ["car.draw(p)"]) + ")", "16 random words"),
    ("s = car.gap\nv = 0\nfor i in range(35):\n    if s > i:\n        v += 1\nreturn car.safe(v)",
     "`f` needs at least 1"),
    ("for i in range(60):\n    if car.gap > i:\n        g = g + car.speed\nreturn car.safe(g)", "at most 128"),
)


class Car(Protocol):
    """The car of a rule: its inputs, and what a rule calls."""

    speed: int
    limit: int
    gap: int
    headspeed: int
    side: bool
    sidegap: int
    sideback: int

    def draw(self, probability: Probability, word: Optional[int] = None) -> bool: ...

    def safe(self, speed: int) -> int: ...


@trlab.motion
def nasch(car: Car, p: Probability = "1/2") -> int:
    v = min(car.speed + 1, car.limit, car.gap)
    if car.draw(p):
        v = max(v - 1, 0)
    return v


@trlab.motion
def slow_to_start(car: Car, p: Probability = 0.1, p0: Probability = 0.5) -> int:
    brakes = car.draw(p0 if car.speed == 0 else p)
    v = min(car.speed + 1, car.limit, car.gap)
    if brakes and v > 0:
        v -= 1
    return v


@trlab.change
def change_lanes(car: Car, p: Probability = 1) -> bool:
    return (
        car.side and car.gap < car.speed + 1 and car.sidegap > car.speed + 1
        and car.sideback > car.limit and car.draw(p, word=1)
    )


def twice(car: Car, number: int, by: int = STEP_BY) -> int:
    for i in range(by - 1):
        number = number + number
    return number


@trlab.motion
def with_a_helper(car: Car) -> int:
    return min(twice(car, car.speed) + 1, car.limit, car.gap)


WITHOUT_TEXT: Callable[[Car], int] = eval("lambda car: 1")


@trlab.motion
def with_a_helper_without_text(car: Car) -> int:
    return WITHOUT_TEXT(car)


@trlab.motion
def with_a_function_of_a_library(car: Car) -> int:
    return math.floor(car.gap)


def adding(number: int) -> PythonRule:
    """A rule with a variable of the function around it."""
    double = 2 * number

    @trlab.motion
    def add(car: Car) -> int:
        return car.safe(car.speed + double)

    return add


def minimum_as_max() -> PythonRule:
    """A rule in which `max` is Python's `min`."""
    max = min

    @trlab.motion
    def lowest(car: Car) -> int:
        return max(car.gap, car.limit)

    return lowest


class WholeNumber:
    """A whole number of another library."""

    def __index__(self) -> int:
        return 2


class Several:
    """Several numbers, as an array of numpy has them."""

    def __bool__(self) -> bool:
        raise ValueError("the truth value is ambiguous")


def program(body: str, kind: str = "motion", **parameters: object) -> Program:
    """The program of a function with these lines, which begin at line 3 of its file."""
    lines = "".join(f"    {line}\n" for line in body.split("\n"))
    return rules_in(f"@trlab.{kind}\ndef f(car, g=2, p=0.25):\n{lines}")["f"](**parameters)


def instructions(text: str) -> list[str]:
    """The lines of a program without comments."""
    return [line.split(";")[0].strip() for line in text.split("\n")]


def view(**inputs: object) -> View:
    """A view of a car, with random words that are never below a half."""
    words = 16 * [2**31]  # a draw with p is true for a word below p * 2**32
    return {
        "speed": 3, "limit": 5, "headspeed": 0, "lane": 0, "gap": 3, "side": True, "sidegap": 9, "sideback": 9,
        "words": words,
        **inputs,
    }


def speeds(body: str, **parameters: Any) -> list[Union[int, bool]]:
    """The new speeds of a car with speed 3, for gaps of 0, 1, 4 and 9."""
    text = program(body, **parameters)
    return [run_program(text, view(gap=gap)) for gap in (0, 1, 4, 9)]


def changes(body: str, **inputs: object) -> Union[int, bool]:
    """Whether a car with these inputs changes lanes."""
    return run_program(program(body, "change"), view(**inputs))


class Published(unittest.TestCase):
    def test_they_are_the_rules_of_the_program(self) -> None:
        for density in 0.05, 0.3, 0.8:
            probabilities: list[tuple[Probability, Probability]] = [(0, 1), (0.25, "1/3"), (Fraction(1, 2), 0.1)]
            for p, q in probabilities:
                pairs: list[tuple[Rule, Rule, int]] = [
                    (Own(nasch(p=p)), Nasch(p), 1),
                    (Own(slow_to_start(p=p, p0=q)), SlowToStart(p, q), 1),
                    (Own(nasch(p=p), change_lanes(p=q)), Rickert(p, q), 2),
                ]
                for ours, theirs, lanes in pairs:
                    with self.subTest(theirs=theirs, density=density):
                        road: dict[str, Any] = {
                            "limit": 5, "length": 60, "lanes": lanes, "density": density, "start": random_cells(3),
                        }
                        runs = [Job(**road, rule=rule, steps=20, key=7).run().text() for rule in (ours, theirs)]
                        self.assertEqual(runs[0], runs[1])

    def test_nasch_is_as_short_as_the_built_in_program(self) -> None:
        self.assertEqual(nasch().budget, 12)  # that of examples/nasch.rule
        self.assertEqual(check(nasch()).budget, nasch().budget)
        self.assertEqual(Own(nasch), Own(nasch()))
        self.assertIs(type(Own(nasch).motion), str)


class Random(unittest.TestCase):
    def test_programs_compute_the_same_as_python(self) -> None:
        # tools/functions tries many more.
        accepted = 0
        for seed in range(FUNCTIONS):
            function = RandomFunction(f"unit {seed}")
            self.assertFalse(function.has_other_error(), function)
            if function.program is not None:
                accepted += 1
                self.assertIsNone(function.difference(30), function)
        self.assertGreater(accepted, FUNCTIONS / 2)


class Values(unittest.TestCase):
    def test_numbers_below_0_are_exact(self) -> None:
        self.assertEqual(speeds("free = car.gap - g\nreturn max(min(5, car.limit, free), 0)"), [0, 0, 2, 5])
        self.assertEqual(speeds("d = car.gap - 4\nreturn min(abs(d), car.gap, car.limit)"), [0, 1, 0, 5])
        self.assertEqual(speeds("d = car.gap - 4\nreturn car.safe(-d)"), [0, 1, 0, 0])
        self.assertEqual(speeds("d = (car.gap - 5) // 2\nreturn car.safe(d + 3)"), [0, 1, 2, 5])
        self.assertEqual(speeds("d = (car.gap - 5) % 4\nreturn car.safe(d)"), [0, 0, 3, 0])
        self.assertEqual(speeds("return car.safe(4 - 2 * (car.gap - 3))"), [0, 1, 2, 0])
        self.assertEqual(speeds("return car.safe(5 - max(car.gap - 6, -2))"), [0, 1, 4, 2])
        self.assertEqual(speeds("return car.safe(car.gap * (g - 2) + 1)"), [0, 1, 1, 1])

    def test_a_number_changes_its_sign_in_its_place(self) -> None:
        self.assertEqual(speeds("d = car.gap - 4\nd = -1 * d\nreturn car.safe(d + 2)"), [0, 1, 2, 0])

    def test_a_flag_made_of_another_leaves_it_as_it_is(self) -> None:
        for kind in "car.gap > 3", "car.draw(1) and car.gap > 3":
            self.assertEqual(speeds(f"a = {kind}\nb = a and car.gap > 5\nreturn car.safe(3 if a else 1)"), [0, 1, 3, 3])
        body = "a = car.side\nb = a and car.gap > 5\nreturn a"
        self.assertTrue(changes(body, gap=1))

    def test_an_unused_difference_is_still_checked(self) -> None:
        # u is -5: without its `sub` the verifier would not see that it is below 0.
        self.assertEqual(
            speeds("u = car.gap\nu -= 5 + u\nreturn max(min(-(u + u), car.limit, car.gap), 0)"), [0, 1, 4, 5]
        )

    def test_conditions(self) -> None:
        self.assertEqual(speeds("return car.safe(5 if 0 < car.gap <= 4 != 3 else 2)"), [0, 1, 4, 2])
        self.assertEqual(
            speeds("far = car.gap > 3 and not car.gap == 9\nreturn car.safe(4 if far else 1)"), [0, 1, 4, 1]
        )
        self.assertEqual(speeds("return car.safe(5 if 2 > car.gap or car.gap > 8 else 2)"), [0, 1, 2, 5])
        self.assertEqual(speeds("return car.safe(1 + (car.gap > 1) + (car.gap > 5))"), [0, 1, 2, 3])
        self.assertEqual(speeds("return car.safe(4 if car.gap - 4 else 2)"), [0, 1, 2, 4])

    def test_true_and_false_are_1_and_0(self) -> None:
        self.assertEqual(speeds("far = car.gap > 3\nreturn car.safe(far if car.gap > 5 else car.gap)"), [0, 1, 4, 1])
        self.assertEqual(speeds("v = car.gap and 2\nreturn car.safe(v)"), [0, 1, 2, 2])
        self.assertEqual(speeds("v = (car.gap > 3 and car.speed) or 1\nreturn car.safe(v)"), [0, 1, 3, 3])
        self.assertEqual(speeds("b = car.draw(1)\nb = b + 2\nreturn car.safe(b)"), [0, 1, 3, 3])
        self.assertEqual(speeds("b = car.draw(1)\nv = b and car.gap - 2\nreturn car.safe(v)"), [0, 0, 2, 5])
        self.assertTrue(changes("return car.side and (car.side == 1)"))
        self.assertFalse(changes("v = car.side\nif car.gap < 5:\n    v = 0\nreturn car.side and v"))

    def test_loops_and_parameters(self) -> None:
        self.assertEqual(
            speeds("v = 0\nfor i in range(g):\n    if car.gap > i:\n        v += 1\nreturn car.safe(v)", g=3),
            [0, 1, 3, 3],
        )
        self.assertEqual(speeds("return car.safe(g * 2 - 1)", g=2), [0, 1, 3, 3])
        self.assertEqual(with_a_helper().budget, 9)

    def test_a_parameter_may_switch_a_part_off(self) -> None:
        for body in "v = car.gap // g if g else car.gap", "v = car.gap\nif g:\n    v = v // g - v % g":
            self.assertEqual(speeds(f"{body}\nreturn car.safe(v)", g=0), [0, 1, 4, 5])
        self.assertEqual(speeds("return car.safe(9 // g if g else 2)", g=0), [0, 1, 2, 2])

    def test_numbers_of_other_libraries(self) -> None:
        body = "v = 0\nfor i in range(g):\n    v += 1 + car.draw(p, word=g)\nreturn car.safe(v + (g - 3))"
        self.assertEqual(program(body, g=WholeNumber()), program(body, g=2))

    def test_probabilities_may_be_texts(self) -> None:
        self.assertEqual(speeds("return car.safe(4 if car.draw(p if g - 1 else '1/3') else 1)", p="1/1"), [0, 1, 4, 4])

    def test_draws_are_true_as_often_as_the_probability(self) -> None:
        self.assertEqual(speeds("return car.safe(4 if car.draw(1) and not car.draw(0) else 1)"), [0, 1, 4, 4])
        self.assertIn(f"draw r0, 0, {THIRD}", instructions(program("return car.safe(car.draw('1/3'))")))

    def test_early_returns(self) -> None:
        self.assertEqual(speeds("if car.gap < 2:\n    return 0\nv = car.safe(g)\nreturn v"), [0, 0, 2, 2])
        self.assertFalse(changes("if car.gap > 1:\n    return False\nreturn car.side", gap=2))
        self.assertTrue(changes("if car.gap > 1:\n    return False\nreturn car.side", gap=1))


class Words(unittest.TestCase):
    def test_draws_are_numbered_as_python_evaluates_them(self) -> None:
        body = (
            "v = car.safe(2 if car.draw(p) else 1 + car.draw(p))\n"
            "for i in range(2):\n    if car.draw(p):\n        v = 0\nreturn v"
        )
        self.assertEqual(program(body).words, {0, 1, 2, 3})
        # A change program counts down from 15, so that its words differ from those of the motion program.
        self.assertEqual(program("return car.draw(p) and car.side and car.draw(p)", "change").words, {14, 15})
        first = instructions(program("a = car.draw(0.25)\nreturn car.safe(car.draw(0.5) + a)"))
        # The word and the probability of `draw REGISTER, WORD, PROBABILITY`, in the order of the calls.
        draws = [line.split(", ", 1)[1] for line in first if line.startswith("draw ")]
        self.assertEqual(draws, [f"0, {QUARTER}", f"1, {HALF}"])

    def test_each_call_of_a_function_has_its_own(self) -> None:
        text = (
            "def often(car):\n    return car.draw(0.5) or car.draw(0.25)\n@motion\ndef f(car):\n"
            "    a = often(car)\n    return car.safe(often(car) + a)\n"
        )
        self.assertEqual(rules_in(text)["f"]().words, {0, 1, 2, 3})

    def test_a_parameter_does_not_change_the_numbers(self) -> None:
        text = "v = 0\nif g > 1 and car.draw(p):\n    v = 1\nif car.draw(1):\n    v = 1\nreturn car.safe(v)"
        for g in 1, 2:
            self.assertTrue(any(line.endswith(f"1, {ALWAYS}") for line in instructions(program(text, g=g))))
        text = "v = 1 if g > 1 else 2 + car.draw(p)\nif car.draw(1):\n    v = 1\nreturn car.safe(v)"
        for g in 1, 2:
            self.assertTrue(any(line.endswith(f"1, {ALWAYS}") for line in instructions(program(text, g=g))))

    def test_a_word_is_shared_only_on_purpose(self) -> None:
        self.assertEqual(program("return car.safe(car.draw(p, word=3) + car.draw(p, word=3))").words, {3})
        self.assertRaisesRegex(
            RuleError, "line 3: .* random word 1, which another", program,
            "return car.safe(car.draw(p, word=1) + car.draw(p) + car.draw(p))",
        )
        mixed = program("return car.side and car.draw(p, word=0)", "change")
        by_hand = "change\nside r0\njfalse r0, no\ndraw r0, 0, 5 ; draw r0, 7, 1\njfalse r0, no\ncross\nno: stay"
        for change in mixed, by_hand:
            self.assertRaisesRegex(ParameterError, "both programs use random word 0", Own, nasch, change)
            Own(program("return car.safe(1 if car.draw(p, word=0) else 2)"), change)
        Own(nasch, change_lanes)
        # The motion program has a draw only in a comment.
        motion = "get r0, gap ; draw r0, 15, 1\nget r1, limit\nmin r0, r0, r1\ngo r0"
        Own(motion, program("return car.side and car.draw(p)", "change"))

    def test_a_draw_in_the_probability_of_another_is_made_first(self) -> None:
        nested = "return car.safe(1 if car.draw(p if car.draw(0.5) else 0) else 2)"
        self.assertRaisesRegex(
            RuleError, "line 3: .* another draw in its probability, which Python makes first", program, nested
        )
        first = instructions(program("rains = car.draw(0.5)\nreturn car.safe(1 if car.draw(1 if rains else 0) else 2)"))
        self.assertEqual([line[9:] for line in first if line.startswith("draw")], [f"0, {HALF}", f"1, {ALWAYS}"])
        self.assertEqual(
            program("return car.safe(1 if car.draw(p if car.draw(0.5, word=3) else 0, word=2) else 2)").words, {2, 3}
        )


class Idioms(unittest.TestCase):
    def test_usual_ways_to_write_a_rule_are_accepted(self) -> None:
        for body in (
            "v = min(car.speed + 1, car.limit, car.gap)\nif v and car.draw(p):\n    v -= 1\nreturn v",
            "v = min(car.speed + 1, car.limit, car.gap)\nif v > 2:\n    v -= 1\nreturn v",
            "v = min(car.speed + 1, car.limit)\nif car.gap > g:\n    v = min(v, car.gap - g)\nelse:\n    v = "
            "0\nreturn v",
            "v = car.speed\nif v < car.limit:\n    v += 1\nif v > car.gap:\n    v = car.gap\nreturn v",
            "v = car.speed + 1\nif v <= car.gap and v <= car.limit:\n    return v\nreturn 0",
            "v = min(car.limit, car.gap)\nif v == car.limit and car.draw(p):\n    v -= 1\nreturn v",
            "return car.safe(car.speed + min(car.headspeed - car.speed, 1))",
        ):
            with self.subTest(body=body):
                check(program(body))
        for body in (
            "wants = car.gap < car.speed\nroom = car.side and car.sidegap > car.gap\nreturn wants and room",
            "ok = (car.side and car.sidegap > 2) and car.sideback > 5\nreturn ok",
            "if not car.side:\n    return False\nreturn car.sidegap - car.gap > 2",
        ):
            with self.subTest(body=body):
                check(program(body, "change"))

    def test_safe_rules_that_are_rejected_have_a_cure(self) -> None:
        # The table of docs/PROGRAMS.md.
        fast = "v = min(car.speed + 1, car.limit, car.gap)\n"
        for kind, rejected, accepted in (
            ("motion", "return min(car.speed + 1, car.limit, 2 * car.gap // 3)",
             "return min(car.speed + 1, car.limit, 2 * car.gap // 3, car.gap)"),
            ("motion", fast + "a = min(car.limit, car.gap)\nreturn (a + v) // 2",
             fast + "a = min(car.limit, car.gap)\nreturn car.safe((a + v) // 2)"),
            ("motion", "d = car.headspeed - car.speed\n" + fast + "if d < 0:\n    v = max(v + d, 0)\nreturn v",
             "d = car.headspeed - car.speed\nv = car.speed + 1\nif d < 0:\n    v = v + d\n"
             "return max(min(v, car.limit, car.gap), 0)"),
            ("change", "return car.sidegap > car.gap", "return car.side and car.sidegap > car.gap"),
            ("change", "return car.sideback >= car.limit", "return car.side and car.sideback >= car.limit"),
            ("change", "ok = False\nif car.side and car.gap < 3:\n    ok = True\nreturn ok",
             "ok = car.side and car.gap < 3\nreturn ok"),
            ("motion", "v, w = car.gap, car.limit\nreturn min(v, w)", "v = car.gap\nw = car.limit\nreturn min(v, w)"),
            ("motion", "return min(int(0.5 * car.gap), car.limit)", "return min(car.gap // 2, car.limit)"),
        ):
            with self.subTest(rejected=rejected):
                self.assertRaisesRegex(RuleError, "may be |cannot be assigned|is not possible", program, rejected, kind)
                check(program(accepted, kind))

    def test_a_subtraction_that_is_safe_is_one_instruction(self) -> None:
        text = instructions(program("v = min(car.speed + 1, car.limit, car.gap)\nif v > 0:\n    v -= 1\nreturn v"))
        self.assertEqual(sum(line.startswith("min") for line in text), 2)


class Errors(unittest.TestCase):
    def test_the_budget_of_a_function_that_was_not_called(self) -> None:
        (rule,) = rules_in("@trlab.motion\ndef keep(car, g=1):\n    return min(car.limit, max(car.gap - g, 0))\n").values()
        rule_as_any: Any = rule
        for name in "budget", "words":
            with self.assertRaisesRegex(AttributeError, rf"write `keep\(\).{name}`"):
                getattr(rule_as_any, name)
            self.assertTrue(hasattr(rule_as_any(), name))
        self.assertRaisesRegex(AttributeError, "a motion rule has no 'budgets'", getattr, rule_as_any, "budgets")

    def message_of(self, body: str, kind: str = "motion", **parameters: object) -> str:
        """The error of a function with these lines."""
        with self.assertRaises(RuleError) as caught:
            program(body, kind, **parameters)
        return str(caught.exception)

    def test_a_rejected_program_is_explained_by_its_line(self) -> None:
        self.assertEqual(
            self.message_of("v = car.gap - g\nreturn min(v, car.limit)"),
            "rule.py, line 3: `car.gap - g` may be below 0, and so may the speed of line 4: write `max(car.gap - g, "
            "0)`, or `return car.safe(..)`",
        )
        self.assertIn("line 3: `car.gap - g` may be below 0", self.message_of("return min(car.gap - g, car.limit)"))
        self.assertIn(
            "line 3: `return min(car.speed + 1, car.limit)` may be more than the gap",
            self.message_of("return min(car.speed + 1, car.limit)"),
        )
        self.assertIn("more than the limit", self.message_of("return min(car.speed + 1, car.gap)"))
        self.assertIn(
            "line 4: `return True` may be true if the side cell",
            self.message_of("if car.gap < 3:\n    return True\nreturn False", "change"),
        )
        self.assertIn("may be above 4294967295", self.message_of("return car.safe(car.gap * 99999)"))

    def test_outside_of_the_subset(self) -> None:
        for body, message in OUTSIDE_OF_THE_SUBSET:
            with self.subTest(body=body):
                self.assertIn(message, self.message_of(body))

    def test_too_many_registers(self) -> None:
        names = "abcdefghi"
        body = "\n".join(f"{name} = car.gap // {n + 2}" for n, name in enumerate(names))
        rest = "\n".join(f"if {name} > car.speed:\n    v += {name}" for name in names)
        self.assertIn("more than eight registers", self.message_of(f"{body}\nv = 0\n{rest}\nreturn car.safe(v)"))

    def test_functions_that_are_written_out_too_often(self) -> None:
        turns = "".join(f"{4 * n * ' '}for {name} in range(64):\n" for n, name in enumerate("ijk"))
        for body in "pass", "v += 1":
            self.assertIn("one part too many", self.message_of(f"v = 0\n{turns}            {body}\nreturn car.safe(v)"))
        twice = "".join(f"def f{n}(x):\n    return f{n - 1}(x) + f{n - 1}(x)\n" for n in range(1, 16))
        text = f"def f0(x):\n    return x\n{twice}@motion\ndef f(car):\n    return car.safe(f15(car.gap))\n"
        self.assertRaisesRegex(RuleError, "one part too many", rules_in(text)["f"])
        self.assertIn("too many brackets", self.message_of(f"return car.safe({'+'.join(400 * ['car.gap'])})"))

    def test_calls_that_do_not_end(self) -> None:
        text = "def g(car):\n    return g(car)\n@motion\ndef f(car):\n    return g(car)\n"
        self.assertRaisesRegex(RuleError, "line 2: .* calls itself", rules_in(text)["f"])

    def test_wrong_parameters_and_functions(self) -> None:
        self.assertRaisesRegex(
            ParameterError, "nasch: got an unexpected keyword argument 'h'; its parameters are p", nasch, h=2
        )
        self.assertRaisesRegex(ParameterError, "is a change rule", Own, change_lanes)
        self.assertRaisesRegex(RuleError, "the text of .* was not found", trlab.motion, len)
        self.assertRaisesRegex(RuleError, "the text of .* was not found", with_a_helper_without_text)
        self.assertRaisesRegex(RuleError, "`math.floor.car.gap.` is not possible", with_a_function_of_a_library)
        self.assertRaisesRegex(ParameterError, "name the parameters, for example `nasch.p=..", nasch, 0.5)
        self.assertRaisesRegex(ParameterError, "write `@trlab.motion` above it", Own, twice)
        self.assertRaisesRegex(ParameterError, "is `Own.nasch.`", Job, limit=5, length=9, cars=1, rule=nasch, steps=1)
        self.assertEqual(check(nasch), check(nasch()))
        self.assertEqual(trlab.explain(nasch), trlab.explain(nasch()))
        for body in "return car.safe(g)", "if g:\n    return 0\nreturn car.safe(1)":
            self.assertIn("the truth value is ambiguous", self.message_of(body, g=Several()))
        self.assertIn("; f(g=?, p=0.25)", program("return car.safe(1)", g=object()))
        self.assertEqual(program("return car.safe(g)", g=WholeNumber()), program("return car.safe(g)", g=2))
        self.assertRaisesRegex(RuleError, "the text of .* was not found", trlab.motion, eval("lambda car: 1"))
        self.assertRaisesRegex(
            ParameterError, "missing a required argument: 'g'", rules_in("@motion\ndef f(car, g):\n    return g\n")["f"]
        )
        self.assertEqual(dict(slow_to_start.parameters), {"p": 0.1, "p0": 0.5})


class Files(unittest.TestCase):
    def test_a_file_is_read_and_not_run(self) -> None:
        text = (
            "import os\nos.abort()\nG = 3\n@motion\n"
            "def f(car):\n    return max(min(car.speed + 1, car.limit, car.gap - G), 0)\n"
        )
        self.assertIn("num r1, 3", instructions(rules_in(text)["f"]()))
        for last_line in ("G += 1\n", "if True:\n    G = 4\n", "from numpy import G\n", "G = len('ab')\n"):
            self.assertRaisesRegex(RuleError, "line 6: `G` is not known before the run", rules_in(text + last_line)["f"])
        self.assertRaisesRegex(RuleError, "no decorators", rules_in, "@cache\n@motion\ndef f(car):\n    return 0\n")
        self.assertRaisesRegex(RuleError, "line 1: this is not Python", rules_in, "def f(:\n")

    def test_names_that_change_while_the_file_runs(self) -> None:
        rule = "@motion\ndef f(car):\n    return min(car.speed + 1, car.limit, max(car.gap - G, 0))\n"
        for text in (
            "G = H = 3\n", "G: int = 3\n", "from trlab import *\nG = 3\n", "@cache\ndef g():\n    return 1\nG = 3\n"
        ):
            self.assertIn("num r1, 3", instructions(rules_in(text + rule)["f"]()))
        for change in (
            "def more():\n    global G\n    G = 4\nmore()", "del G", "def G():\n    pass\nasync def G():\n    pass",
            "class G:\n    pass",
            "try:\n    pass\nexcept OSError as G:\n    pass", "def f(x=(G := 4)):\n    pass", "import os as G",
            "import G.path",
        ):
            for text in f"G = 3\n{change}\n{rule}", f"G = 3\n{rule}{change}\n":
                with self.subTest(text=text):
                    self.assertRaisesRegex(RuleError, "`G` is not known before the run", lambda: rules_in(text)["f"]())
        self.assertRaisesRegex(
            RuleError, "line 2: `import .` may change any name", rules_in, f"G = 3\nfrom math import *\n{rule}"
        )
        self.assertRaisesRegex(
            RuleError, "no decorators except one", rules_in, "@motion\n@change\ndef f(car):\n    return 0\n"
        )
        for helper in "from os import g", "@cache\ndef g(car):\n    return 0":
            text = f"{helper}\n@motion\ndef f(car):\n    return g(car)\n"
            self.assertRaisesRegex(RuleError, "`g.car.` is not known, because the file is read", rules_in(text)["f"])
        self.assertRaisesRegex(RuleError, "this is not Python", rules_in, "G = 1\0")
        self.assertEqual(list(rules_in("G = {[]: 1}\n@motion\ndef f(car):\n    return 0\n")), ["f"])

    def test_names_of_python_with_another_meaning(self) -> None:
        for before, line in (
            ("from builtins import min as max", "    return max(car.gap, car.limit)"),
            ("max = 3", "    return max(car.gap, car.limit)"),
            ("def range(n):\n    return [n]", "    for i in range(2):\n        pass\n    return 0"),
        ):
            self.assertRaisesRegex(
                RuleError, "is not known|is not possible", rules_in(f"{before}\n@motion\ndef f(car):\n{line}\n")["f"]
            )
        self.assertRaisesRegex(RuleError, "is not possible: a rule calls", minimum_as_max())
        text = (
            "def max(a, b):\n    return a if a < b else b\n"
            "@motion\ndef f(car):\n    return max(car.gap, car.limit)\n"
        )
        self.assertEqual(run_program(rules_in(text)["f"](), view(gap=2)), 2)

    def test_a_file_that_has_changed_is_an_error(self) -> None:
        with tempfile.TemporaryDirectory() as folder:
            path = os.path.join(folder, "changing_rule.py")
            for number in 2, 3:
                with open(path, "w") as file:
                    file.write(
                        f"def f(car, g=1):\n    # {number * 'x'}\n    return min(car.gap, car.limit, {number})\n"
                    )
                if number == 2:
                    names: dict[str, Any] = {}
                    with open(path) as file:
                        exec(compile(file.read(), path, "exec"), names)
                    self.assertIn("car.limit, 2)", trlab.motion(names["f"])())
            linecache.checkcache(path)
            self.assertRaisesRegex(RuleError, "the file has changed", trlab.motion, names["f"])

    def test_a_rule_uses_the_variables_around_it(self) -> None:
        self.assertEqual([run_program(adding(number)(), view(gap=9)) for number in (0, 1)], [3, 5])
        with tempfile.TemporaryDirectory() as folder:
            path = os.path.join(folder, "changing_closure.py")
            for number in 2, 3:
                with open(path, "w") as file:
                    file.write(
                        "def around(x):\n    def f(car, g=len.__call__('ab')):\n"
                        f"        return car.safe(x + {number})\n    return f\n{number * '# '}\n"
                    )
                if number == 2:
                    names: dict[str, Any] = {}
                    with open(path) as file:
                        exec(compile(file.read(), path, "exec"), names)
                    self.assertIn("car.safe(x + 2)", trlab.motion(names["around"](1))())
            linecache.checkcache(path)
            self.assertRaisesRegex(RuleError, "the file has changed", trlab.motion, names["around"](1))

    def test_the_program_has_the_lines_of_the_function(self) -> None:
        text = program("return car.safe(car.speed + 1)")
        self.assertRegex(text, "get r[0-7], speed  *; car.speed\n")
        self.assertRegex(trlab.explain(text), "line [0-9]+: add r[0-7], r[0-7], r[0-7]  *; car.speed \\+ 1\n")
        self.assertEqual(text, program("# a comment\nreturn car.safe(car.speed + 1)"))
        self.assertIn("; f(g=7, p=0.25)", program("return car.safe(g)", g=7))

    def test_the_command(self) -> None:
        with tempfile.TemporaryDirectory() as folder:
            path, output = os.path.join(folder, "own.py"), io.StringIO()
            with open(path, "w") as file:
                file.write("@motion\ndef f(car, g=1, p=0):\n    return car.safe(car.gap - g - car.draw(p))\n")
            with redirect_stdout(output):
                self.assertIsNone(main([path, "g=3", "p=1/3"]))
                self.assertIn("its parameters are g, p", main([path, "h=3"]) or "")
                self.assertIn("name one of its rules: f", main([path, "h"]) or "")
                self.assertIn("usage", main([]) or "")
                self.assertIn("No such file", main(["missing.py"]) or "")
        self.assertIn("; f(g=3, p='1/3')", output.getvalue())
        check(output.getvalue())


if __name__ == "__main__":
    unittest.main()
