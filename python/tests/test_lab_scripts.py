"""The page's scripts that write and read job files, against the Python package: the same controls give the same files."""
import itertools
import math
import random
import unittest
import warnings
from collections.abc import Callable, Sequence
from decimal import Decimal
from fractions import Fraction
from pathlib import Path
from typing import Any, Optional, Union
from unittest import mock

import trlab
from tests.page_scripts import MISSING, Thrown, answer, answers
from trlab import Job, Nasch, Own, ParameterError, Rickert, SlowToStart, Sweep
from trlab._inputs.numbers import ALWAYS, parts, probability
from trlab._inputs.rules import Rule
from trlab._inputs.states import halved, no_warning_of_lanes
from trlab.lab import scripts

# Controls of the page, or those of a rule: their values by name.
Values = dict[str, Any]
Call = Sequence[object]
EXAMPLES = Path(__file__).resolve().parents[2] / "examples"
# The initial states of a seed.
STATES: dict[str, Callable[[int], Any]] = {
    "even": lambda seed: trlab.even,
    "moving": lambda seed: trlab.moving,
    "jam": lambda seed: trlab.jammed,
    "random": trlab.random_cells,
}
MOTION = "get r0, limit\nget r1, gap\nmin r0, r0, r1\ngo r0\n"
PROGRAMS = [MOTION, f"motion\n{MOTION}", f"\n\n{MOTION}\n\n", MOTION[:-1], "code 00ff\n", "; a caf\u00e9\ngo r0"]
CHANGES = ["", " \n", "stay\n", "change\nstay", "code 01"]


def rule_of(controls: Values, lanes: int) -> Rule:
    """The rule of these controls in Python."""
    if controls["model"] == "own":
        return Own(controls["motion"], controls["change"] if lanes == 2 and controls["change"].strip() else None)
    models: dict[str, Callable[[float, float], Rule]] = {
        "nasch": lambda p, q: Nasch(p),
        "vdr": SlowToStart,
        "rickert": Rickert,
    }
    return models[controls["model"]](controls["p"], controls["q"])


def job_of(controls: Values) -> Job:
    """The job of these controls in Python."""
    first, *later = controls["rules"]
    if controls["start"] == "file":
        road = {"start": controls["road"]}
    else:
        road = {name: controls[name] for name in ("length", "lanes", "cars")}
        road["start"] = STATES[controls["start"]](int(controls.get("seed", controls["key"])))
    at = {rule["at"]: rule_of(rule, controls["lanes"]) for rule in later}
    rule, key = rule_of(first, controls["lanes"]), int(controls["key"])
    with no_warning_of_lanes():
        return Job(limit=controls["limit"], steps=controls["steps"], key=key, rule=rule, at=at, **road)


def sweep_of(controls: Values) -> Sweep:
    """The sweep of these controls in Python, with the densities of docs/LAB.md."""
    length, lanes = controls["length"], controls["lanes"]
    densities = [k / 50 if k <= 16 else 0.32 + (k - 16) * 0.045 for k in range(1, 31)]
    cars: set[int] = {round(density * (length * lanes)) for density in densities}
    if lanes == 2:
        cars = {min(halved(count, length), key=lambda near: abs(near - count)) for count in cars}
    same = {name: controls[name] for name in ("limit", "length", "lanes", "warm", "measure")}
    return Sweep(rule=rule_of(controls["rule"], lanes), cars=sorted(cars), key=int(controls["key"]), **same)


class Controls:
    """Random controls, the same in every run."""

    def __init__(self, seed: int) -> None:
        self.numbers = random.Random(seed)

    def probability(self) -> float:
        draw = self.numbers
        decimals, multiples = [round(draw.random(), 2), draw.random()], [draw.randrange(2**31), draw.randrange(2**31) + 0.5]
        return draw.choice([0, 1, 0.5, 0.25, *decimals, *(multiple / 2**31 for multiple in multiples)])

    def rule(self, at: int) -> Values:
        choose = self.numbers.choice
        return {
            "at": at, "model": choose(["nasch", "vdr", "rickert", "own"]), "p": self.probability(), "q": self.probability(),
            "motion": choose(PROGRAMS), "change": choose(CHANGES),
        }

    def job(self) -> Values:
        draw = self.numbers
        lanes, length = draw.choice([1, 2]), draw.choice([1, 2, draw.randint(1, 60), draw.randint(1, 3000)])
        steps = draw.choice([0, 1, 500000, draw.randint(1, 9999)])
        limit, cars = draw.randint(1, 35), draw.choice([0, lanes * length, draw.randint(0, lanes * length)])
        key = draw.choice([0, 1, 2**256 - 1, draw.getrandbits(31), draw.getrandbits(256)])
        characters = ".." + "0123456789abcdefghijklmnopqrstuvwxyz"[: limit + 1]
        road = ["".join(draw.choice(characters) for _ in range(length)) for _ in range(lanes)]
        steps_of_rules = draw.sample(range(steps), min(steps, draw.choice([0, 0, 1, 3])))
        start = draw.choice(["even", "moving", "jam", "random", "file"])
        seed = str(draw.choice([0, 7, draw.getrandbits(200)]))
        return {
            "key": str(key), "limit": limit, "lanes": lanes, "length": length, "cars": cars, "density": 0, "steps": steps,
            "road": road, "start": start, **draw.choice([{}, {}, {"seed": seed}]),
            "rules": [self.rule(at) for at in [0, *steps_of_rules]],
        }

    def sweep(self) -> Values:
        measure = self.numbers.randint(1, 9999)
        return {**self.job(), "rule": self.rule(0), "warm": self.numbers.randint(0, 6000), "measure": measure}


def text_of(input_of: Callable[[], Union[Job, Sweep]]) -> Optional[str]:
    """The file of an input that a call makes, or None if Python rejects the input."""
    try:
        return input_of().text()
    except ParameterError:
        return None


@unittest.skipIf(MISSING, MISSING)
class Files(unittest.TestCase):
    """Job files and sweep files from controls."""

    def check_files(self, calls: Sequence[Call], expected: Sequence[str]) -> None:
        """Check that each call of a script returns the expected file."""
        for call, result, text in zip(calls, answers(calls), expected):
            self.assertEqual(result, text, call)

    def test_random_jobs(self) -> None:
        draw = Controls(1)
        jobs = [draw.job() for _ in range(600)]
        self.check_files([("jobs", "jobFile", job) for job in jobs], [job_of(job).text() for job in jobs])

    def test_random_sweeps(self) -> None:
        draw = Controls(2)
        drawn = [draw.sweep() for _ in range(300)]
        sweeps = [sweep for sweep in drawn if sweep["warm"] + sweep["measure"] <= 500000 // 30]  # others are too long
        self.assertGreater(len(sweeps), 200)
        with warnings.catch_warnings():
            warnings.simplefilter("error")  # if a number of cars is not halved between the lanes
            expected = [sweep_of(sweep).text() for sweep in sweeps]
        self.check_files([("jobs", "sweepFile", sweep) for sweep in sweeps], expected)

    def test_random_cells(self) -> None:
        """Random cells for seeds of one word and of many, and for more cells than the generator has words."""
        seeds = [0, 1, 2**32 - 1, 2**32, 2**64 + 7, 2**255, 2**256 - 1]
        seeds += [random.Random(5).getrandbits(bits) for bits in range(1, 256, 5)]
        # Length, lanes and cars.
        roads = [(1, 1, 1), (10, 1, 3), (624, 1, 311), (3000, 2, 2000), (9999, 1, 1), (50, 2, 100), (50, 2, 0)]
        cases = [(7, (100000, 2, 60000)), *zip(seeds, itertools.cycle(roads))]
        parameters = {"limit": 5, "start": "random", "steps": 0, "rules": [{"at": 0, "model": "nasch", "p": 0, "q": 0}]}
        jobs = [
            {**parameters, "key": str(seed), "length": length, "lanes": lanes, "cars": cars}
            for seed, (length, lanes, cars) in cases
        ]
        self.check_files([("jobs", "jobFile", job) for job in jobs], [job_of(job).text() for job in jobs])

    def test_random_numbers(self) -> None:
        seeds = [0, 7, 2**200 + 1]
        for seed, draws in zip(seeds, answers([("random", "randomNumbers", str(seed), 2000) for seed in seeds])):
            numbers = random.Random(seed)
            self.assertEqual(list(draws.values()), [numbers.random() for _ in range(2000)])

    def test_probabilities(self) -> None:
        """Each probability becomes the multiple of 1 / 2**31 that Python rounds it to, or both reject it."""
        draw = random.Random(3)
        values = [0.0, 1.0, 0.5, 1e-9, 1 - 1e-9, 2**-31, 1.5 * 2**-31, 2.5 * 2**-31, 5e-324, 1e-10, 2**-32]
        values += [draw.random() ** 9 for _ in range(3000)]
        values += [(draw.randrange(2**31) + 0.5) / 2**31 for _ in range(3000)]
        values += [k / 1000 for k in range(1001)]
        for result, number in zip(answers([("checks", "checkedParts", "brake", value) for value in values]), values):
            try:
                self.assertEqual(result, parts(probability("brake", number)), number)
            except ParameterError as error:
                self.assertIsInstance(result, Thrown, number)
                self.assertIn("in multiples of 1 / 2**31", str(result))
                # Python and JavaScript write the number itself in different ways.
                self.assertEqual(str(result)[-9:], str(error)[-9:], number)

    def test_decimals(self) -> None:
        """Each multiple of 1 / 2**31 is shown as the shortest decimal that means it."""
        draw = random.Random(4)
        values = [0, 1, ALWAYS, ALWAYS - 1, *(2**k for k in range(31)), *(3 * 2**k for k in range(29))]
        values += [draw.randrange(ALWAYS) for _ in range(3000)]
        for decimal, number in zip(answers([("checks", "shortestDecimal", value) for value in values]), values):
            written = Fraction(repr(decimal))
            self.assertEqual((parts(decimal), parts(written)), (number, number), decimal)
            digits = max(0, len(f"{Decimal(repr(decimal)).normalize():f}") - len("0."))
            if digits > 0:
                scale = 10 ** (digits - 1)
                shorter = Fraction(round(number * scale / ALWAYS), scale)
                self.assertNotEqual(parts(shorter), number, decimal)


@unittest.skipIf(MISSING, MISSING)
class Errors(unittest.TestCase):
    """Controls that make no file: the messages are those of Python, unless the page has something else to do."""

    job: Values = {
        "key": "7", "limit": 5, "lanes": 1, "length": 50, "cars": 20, "start": "random", "steps": 9, "road": None,
        "rules": [{"at": 0, "model": "nasch", "p": 0.25, "q": 0.5, "motion": "", "change": ""}],
    }

    def test_messages_of_python(self) -> None:
        [rule] = self.job["rules"]
        own_programs = "", "  ", "change\nstay", "code 00\ncode 01", "go r0\nend\n", "go r0 ; \ud800"
        changes: list[Values] = [
            {"limit": 0}, {"limit": 36}, {"limit": 2.5}, {"length": 0}, {"length": 100001}, {"lanes": 3},
            {"cars": 51}, {"cars": -1}, {"cars": 0.5}, {"key": str(2**256), "start": "even"},
            *({"start": "file", "road": road} for road in (["0.6"], ["0..", "0."], ["0X."])),
            {"rules": [rule, {**rule, "at": 9}]},
            *({"rules": [{**rule, "model": "own", "motion": program}]} for program in own_programs),
            *({"rules": [{**rule, "p": p}]} for p in (-0.5, 1.5, 1e-10, 1 - 1e-12)),
            *({"rules": [{**rule, "model": model, "q": 2}]} for model in ("vdr", "rickert")),
        ]
        errors = answers([("jobs", "jobFile", {**self.job, **change}) for change in changes])
        for change, thrown in zip(changes, errors):
            with self.subTest(change=change), self.assertRaises(ParameterError) as raised:
                job_of({**self.job, **change}).text()
            self.assertIsInstance(thrown, Thrown, change)
            self.assertEqual(str(thrown), str(raised.exception))

    def test_numbers_of_another_kind(self) -> None:
        """A value that is not a number of the right kind is an error, and never gives a file."""
        [right_rule] = self.job["rules"]
        sweep = {**self.job, "rule": right_rule, "warm": 3, "measure": 4}
        values: list[object] = [True, False, 1.5, None, [], {}, -1, 1e300, "x", "5", ""]
        for value in values:
            key = [] if value == "5" else ["key"]  # a key is a text of digits
            job_fields = "limit", "lanes", "length", "cars", "steps", *key, "start"
            sweep_fields = "limit", "lanes", "length", "warm", "measure", *key
            rules = [{**right_rule, field: value} for field in ("at", "model", "p")]
            jobs = [{**self.job, field: value} for field in job_fields]
            jobs += [{**self.job, "rules": [rule]} for rule in rules]
            jobs += [{**self.job, "rules": [right_rule, {"at": 3, **rule}]} for rule in rules]
            calls = [("jobs", "jobFile", job) for job in jobs]
            calls += [("jobs", "sweepFile", {**sweep, field: value}) for field in sweep_fields]
            for call, error in zip(calls, answers(calls)):
                self.assertIsInstance(error, Thrown, call)

    def test_messages_of_the_page(self) -> None:
        rules = self.job["rules"]
        changes: tuple[tuple[Values, str], ...] = (
            ({"steps": 500001}, "steps must be between 0 and 500000, not 500001"),
            ({"key": "1e3"}, "the key must have 1 to 78 decimal digits, not '1e3'"),
            ({"start": "moved"}, "the initial state is even, moving, random, jam or file, not 'moved'"),
            ({"rules": [{**rules[0], "at": 1}]}, "the first step of the first rule must be between 0 and 0, not 1"),
            ({"rules": rules + 2 * [{**rules[0], "at": 3}]}, "two rules take over at the same step"),
            ({"rules": [{**rules[0], "model": "toString"}]}, "the rule is nasch, vdr, rickert or own, not 'toString'"),
            ({"rules": [{**rules[0], "p": "0.5"}]}, "brake must be a number between 0 and 1, not '0.5'"),
        )
        errors = answers([("jobs", "jobFile", {**self.job, **change}) for change, _ in changes])
        self.assertEqual([str(error) for error in errors], [message for _, message in changes])
        with self.assertRaises(Thrown) as thrown:
            answer("jobs", "sweepFile", {**self.job, "length": 1000, "rule": rules[0], "warm": 10000, "measure": 10000})
        limits = "a sweep file has at most 200 points and 500000 steps of all points together"
        sizes = "this sweep has 30 points of 20000 steps"
        self.assertEqual(str(thrown.exception), f"{limits}, and {sizes}: choose fewer steps")


@unittest.skipIf(MISSING, MISSING)
class Reading(unittest.TestCase):
    """Controls from files."""

    def test_every_job_again(self) -> None:
        """The controls of a file give the same file."""
        draw = Controls(6)
        texts = [text for text in (text_of(lambda: job_of(draw.job())) for _ in range(300)) if text]
        texts += [path.read_text() for path in sorted(EXAMPLES.glob("*.job"))]
        road = f"road 1\nkey {64 * 'f'}\nlimit 35\nlane z.\nlane ..\n"
        texts.append(road + "rule own\ncode 0\nchange\nstay\nend\nsteps 9\nat 3 rule vdr 1 2147483648\n")
        jobs = answers([("reading", "jobOf", text) for text in texts])
        for text, again in zip(texts, answers([("jobs", "jobFile", job) for job in jobs])):
            self.assertEqual(again, text)

    def test_controls(self) -> None:
        road = f"road 1\nkey {64 * 'A'}\nlimit 3\nlane 0.1\nlane ...\n"
        later_rules = "at 4 rule own\nmotion\ngo r0\nend\nat 5 rule nasch 715827883"
        controls = answer("reading", "controlsOf", f"{road}rule vdr 1 2147483648\nsteps 9\n{later_rules}")
        rules = [(rule["at"], rule["p"], rule["q"], rule["motion"]) for rule in controls.pop("rules")]
        own = "motion\ngo r0\n"
        # A control that a rule does not have keeps its value of the rule before.
        self.assertEqual(rules, [(0, 5e-10, 1, ""), (4, 5e-10, 1, own), (5, 0.3333333335, 1, own)])
        self.assertEqual(controls, {
            "key": str(int(64 * "A", 16)), "limit": 3, "lanes": 2, "length": 3, "cars": 2, "steps": 9, "start": "file",
            "road": ["0.1", "..."],
        })

    def test_a_sweep_file(self) -> None:
        draw = Controls(7)
        sweeps = [{**draw.sweep(), "warm": 3, "measure": 4} for _ in range(20)]
        jobs = answers([("reading", "jobOf", sweep_of(sweep).text()) for sweep in sweeps])
        for controls, job in zip(sweeps, jobs):
            for name in "key", "limit", "length", "lanes":
                self.assertEqual(job[name], controls[name], name)
            self.assertEqual(job["start"], "even")
            self.assertEqual(job["cars"], round(0.15 * controls["length"] * controls["lanes"]))

    def test_a_word_that_the_page_does_not_know(self) -> None:
        texts = (
            ("road 1\nbridge 3\n", "line 2 of the file begins with a word that the page does not know: bridge"),
            ("road 1\nrule own\nmotion\ngo r0\n", "the file ends too early"),
            ("steps x\n", "the file has x instead of a number"),
        )
        errors = answers([("reading", "controlsOf", text) for text, _ in texts])
        self.assertEqual([str(error) for error in errors], [message for _, message in texts])


@unittest.skipIf(MISSING, MISSING)
class Curves(unittest.TestCase):
    """Exact curves. A plot of 316 pixels shows three digits; nine are demanded."""

    def curves(self, *cases: tuple[int, int, Values, int]) -> list[Any]:
        """The curves of (limit, length, rule, lanes)."""
        rest = {"motion": "", "change": "", "p": 0.25, "q": 0.5}
        controls = [
            {"limit": limit, "length": length, "rule": {**rest, **rule}, "lanes": lanes}
            for limit, length, rule, lanes in cases
        ]
        return answers([("exact", "exactCurve", control) for control in controls])

    def test_the_triangle(self) -> None:
        rules: tuple[Values, ...] = (
            {"model": "nasch", "p": 0}, {"model": "vdr", "p": 0, "q": 0}, {"model": "rickert", "p": 0, "q": 0},
            {"model": "own", "motion": MOTION},
        )
        cases = [(limit, 77, rule, 1) for rule in rules for limit in (1, 2, 5, 35)]
        for (limit, *_), curve in zip(cases, self.curves(*cases)):
            self.assertEqual(curve["kind"], "triangle")
            self.assertEqual([vertex["density"] for vertex in curve["points"]], [0, 1 / (limit + 1), 1])
            for point in curve["points"]:
                self.assertAlmostEqual(point["flow"], float(trlab.exact.triangle(limit, point["density"])), places=15)

    def test_the_stationary_flow(self) -> None:
        lengths, probabilities = (1, 2, 3, 12, 99, 100, 1000, 100000), (1e-9, 0.01, 1 / 3, 0.9999, 1 - 1e-9, 1)
        rules: list[Values] = [{"model": "nasch", "p": brake} for brake in probabilities]
        cases = [(1, length, rule, 1) for length in lengths for rule in rules]
        for (_, length, rule, _), curve in zip(cases, self.curves(*cases)):
            counts = sorted({round(k * length / 100) for k in range(101)})
            self.assertEqual([vertex["density"] for vertex in curve["points"]], [cars / length for cars in counts])
            every = 1 if length < 100000 else 9  # the flow of a long road takes long
            for cars, point in list(zip(counts, curve["points"]))[::every]:
                expected, flow = trlab.exact.flow_as_float(length, cars, rule["p"]), point["flow"]
                is_equal = math.isclose(flow, expected, rel_tol=1e-9, abs_tol=1e-300)
                self.assertTrue(is_equal, (length, rule, cars, flow, expected))

    def test_flows_that_are_not_known(self) -> None:
        *unknown, known = self.curves(
            (2, 50, {"model": "nasch"}, 1), (1, 50, {"model": "vdr"}, 1), (1, 50, {"model": "own", "motion": "go r0"}, 1),
            (1, 50, {"model": "nasch"}, 2), (1, 50, {"model": "rickert"}, 1), (5, 50, {"model": "vdr", "p": 0}, 1),
            (1, 50, {"model": "vdr", "q": 0.25}, 1),  # the Nagel-Schreckenberg model, because p is 0.25, too
        )
        self.assertEqual(unknown, [None] * 6)
        self.assertEqual(known["kind"], "stationary")


# Errors that are planted into the scripts, one at a time: a text, and the wrong text that replaces it.
PLANTED = (
    # Probabilities as multiples of 1 / 2**31, and as decimals
    ("rest > 0.5 || rest === 0.5 && low % 2 === 1", "rest >= 0.5"),  # halves are rounded up
    ("rest > 0.5 || rest === 0.5 && low % 2 === 1", "rest > 0.5"),  # and down
    ("number === nearest || found > 0", "number === nearest || found >= 0"),  # 1e-10 becomes 0
    ("nearestParts(decimal) === found", "Math.abs(decimal - exact) < 1e-9"),
    # Random numbers
    ("19650218", "19650219"),
    ("1664525", "1664526"),
    ("1566083941", "1566083943"),
    ("0x9908b0df", "0x9908b0de"),
    ("word << 7", "word << 6"),
    ("words[k % words.length] + k % words.length", "words[k % words.length]"),  # only keys of several words notice it
    ("rest > 0n || !words.length", "rest > 0n"),
    ("2 ** 26 + (word() >>> 6)", "2 ** 26 + (word() >>> 5)"),
    # Initial states
    ("draw < highest ? found.push(cell)", "draw <= highest ? found.push(cell)"),  # see UNNOTICED
    ("car * cells / cars", "car * Math.floor(cells / cars)"),
    ("rows[cell % lanes][Math.floor(cell / lanes)]", "rows[Math.floor(cell / lanes) % lanes][cell >> 1]"),
    # Files from controls
    ("padStart(64", "padStart(63"),
    ("0.32 + (k - 16) * 0.045", "0.32 + (k - 16) * 0.044"),
    ("cars - away, cars + away", "cars + away, cars - away"),
    ("2 * length / periods % 2 === 1", "2 * length / periods % 2 === 0"),
    ("lanes === 2 && change?.trim()", "change?.trim()"),
    ('["vdr", ["brake", "stopped"]]', '["vdr", ["brake"]]'),
    ('replace(/\\n$/, "").split("\\n"), other', 'trimEnd().split("\\n"), other'),
    ("(one, other) => one.at - other.at", "(one, other) => other.at - one.at"),
    ("lines[0] === kind ? [] : [kind]", "[kind]"),
    # Controls from files
    ('lines.takeProgram() : "";', '"" : "";'),
    ("[p = before.p, q = before.q]", "[q = before.q, p = before.p]"),
    ("this.next - 1).map", "this.next).map"),
    ("BigInt(`0x${values[0]}`)", "BigInt(`0x${values[0].slice(1)}`)"),
    # Exact curves
    ("(k * k * brake)", "(k * (k + 1) * brake)"),
    ("roads + term / k", "roads + term"),
    ("term >= NEGLIGIBLE; k--", "term >= 1e-3; k--"),
    ("rule.p === 0", "false"),
    ("limit > 1 || !isNasch", "!isNasch"),
    ("brake === other", "true"),
)
# This error would be noticed only by two equal draws of 53 bits, which do not come: the cells are the same.
UNNOTICED = {"draw < highest ? found.push(cell)"}


@unittest.skipIf(MISSING, MISSING)
class Planted(unittest.TestCase):
    def calls(self) -> list[Call]:
        """Calls of the scripts whose results the other tests compare with Python."""
        draw = Controls(8)
        jobs, sweeps = [draw.job() for _ in range(250)], [{**draw.sweep(), "warm": 3, "measure": 4} for _ in range(40)]
        texts = [text for text in (text_of(lambda: job_of(job)) for job in jobs) if text]
        calls: list[Call] = [("jobs", "jobFile", job) for job in jobs]
        calls += [("jobs", "sweepFile", sweep) for sweep in sweeps]
        calls += [("reading", "controlsOf", text) for text in texts]
        probabilities = 1e-10, 0.5 / 2**31, 1.5 / 2**31, 2.5 / 2**31, 0.3
        calls += [("checks", "checkedParts", "brake", probability) for probability in probabilities]
        calls += [("checks", "shortestDecimal", multiple) for multiple in (1, 715827883, 2**20, 2**31 - 1)]
        calls.append(("random", "randomNumbers", "7", 99))
        vdr: Values = {"model": "vdr", "p": 0.25, "q": 0.5, "motion": "", "change": ""}
        for rule in vdr, {**vdr, "q": 0.25}, {**vdr, "p": 0, "q": 0}:
            roads = [{"limit": limit, "length": 99, "lanes": 1, "rule": rule} for limit in (1, 2)]
            calls += [("exact", "exactCurve", road) for road in roads]
        return calls

    def results(self, calls: Sequence[Call], edit: Callable[[str], str]) -> Optional[list[Any]]:
        """The results of the edited scripts, with errors as texts; None if the scripts end with an error."""
        try:
            return [str(result) if isinstance(result, Thrown) else result for result in answers(calls, edit)]
        except AssertionError:
            return None

    def test_planted_errors_are_noticed(self) -> None:
        calls = self.calls()
        right = self.results(calls, lambda script: script)
        self.assertIsNotNone(right)
        for old, new in PLANTED:
            with self.subTest(old=old, new=new):
                self.assertEqual(scripts.joined("reading", "jobs", "exact").count(old), 1)
                changed = self.results(calls, lambda script: script.replace(old, new))
                self.assertEqual(changed == right, old in UNNOTICED)


@unittest.skipIf(MISSING, MISSING)
class LongFiles(unittest.TestCase):
    def test_work_is_proportional_to_the_length(self) -> None:
        """Each line is taken once. The test counts this, because no test depends on time."""
        count = """this.all.counted = (this.all.counted ?? 0) + 1;
            if (this.all.counted > this.all.length) throw new Error('lines are taken again');"""

        def edit(script: str) -> str:
            return script.replace("  takeLine() {\n", f"  takeLine() {{\n{count}\n", 1)

        key = "key " + 64 * "0"
        head = ["sweep 1", key, "limit 5", "length 9", "lanes 1", "rule nasch 0", "warm 0", "measure 1"]
        points = [*head, *10000 * ["cars 3"]]
        later_rules = [f"at {step} rule rickert 1 2" for step in range(1, 10000)]
        rules = ["road 1", key, "limit 5", "lane 0.", "rule nasch 0", "steps 500000", *later_rules]
        lanes = ["road 1", key, "limit 5", *10000 * ["lane 0."]]
        own = ["road 1", *10000 * ["rule own", "motion", "go r0", "end"]]
        for lines in points, rules, lanes, own:
            [controls] = answers([("reading", "controlsOf", "\n".join(lines) + "\n")], edit)
            self.assertIsInstance(controls, dict)
        self.assertIn("this.all.counted", edit(scripts.joined("reading")))


class Joining(unittest.TestCase):
    """Scripts that are joined: Python does this, without Node."""

    def test_a_name_that_is_not_exported(self) -> None:
        texts = {"one": 'import { there, gone } from "./two.js";\n', "two": "export const there = 1;\n"}
        with mock.patch.object(Path, "read_text", lambda path, _: texts[path.stem]):
            self.assertRaisesRegex(ValueError, "^one.js imports gone, which two.js does not export$", scripts.joined, "one")
            self.assertEqual(scripts.imported_scripts("two"), ["two"])

    def test_a_text_that_would_end_its_element(self) -> None:
        for text in "'</script>'", "'</SCRIPT x'", "a <!--b":
            self.assertRaises(ValueError, scripts.script_element, text, "")


if __name__ == "__main__":
    unittest.main()
