"""Parameters of every type: the input is that of Python's plain number, or there is an error that names the
parameter."""
import enum
import itertools
import os
import subprocess
import sys
import unittest
import warnings
from collections.abc import Callable, Mapping, Sequence
from contextlib import ExitStack
from dataclasses import replace
from decimal import Decimal
from fractions import Fraction
from functools import partial
from pathlib import Path
from typing import Any, Union
from unittest import mock

from trlab import (
    InitialState, Job, Nasch, ParameterError, Rickert, SlowToStart, Snapshot, Sweep, TrlabError, TrlabWarning,
)
from trlab import jammed, random_cells

try:
    import numpy
    from hypothesis import given, settings, strategies as st
except ImportError:
    raise unittest.SkipTest("numpy or hypothesis is not installed") from None

# Calls with arguments of any type.
job_of_any: Callable[..., Any] = Job
sweep_of_any: Callable[..., Any] = Sweep

JOB = Job(limit=5, length=40, cars=12, rule=Nasch(0.25), steps=30, key=7)
ROADS = Job(limit=5, start="0..1..5...", rule=Nasch(0.25), steps=30)
SWEEP = Sweep(limit=5, length=40, rule=Nasch(0.25), warm=9, measure=9, cars=[12])
SETTINGS = settings(deadline=None, database=None, derandomize=True, max_examples=150)


class Five(enum.IntEnum):
    FIVE = 5
    ONE = 1


class Kind(str, enum.Enum):
    QUARTER = "1/4"


class Odd(int):
    """A whole number that writes another one."""

    def __format__(self, how: str) -> str:
        return "4"

    def __repr__(self) -> str:
        return "4"

    __str__ = __repr__


class Indexed:
    """A number of another library."""

    def __index__(self) -> int:
        return 5


WHOLE: dict[str, Callable[[Any], Any]] = {
    "limit": lambda value: replace(JOB, limit=value),
    "length": lambda value: replace(JOB, length=value),
    "lanes": lambda value: replace(JOB, lanes=value),
    "cars": lambda value: replace(JOB, cars=value),
    "steps": lambda value: replace(JOB, steps=value),
    "key": lambda value: replace(JOB, key=value),
    "step of `at`": lambda value: replace(JOB, at={value: Nasch(1)}),
    "seed": lambda value: replace(JOB, start=random_cells(value)),
    "speed": lambda value: replace(JOB, start=random_cells(1, value)),
    "speed ": lambda value: replace(JOB, start=InitialState("jammed", value)),
    "speed of a car": lambda value: replace(ROADS, start=[None, value, 2], length=None),
    "limit of a sweep": lambda value: replace(SWEEP, limit=value),
    "length of a sweep": lambda value: replace(SWEEP, length=value),
    "lanes of a sweep": lambda value: replace(SWEEP, lanes=value),
    "cars of a sweep": lambda value: replace(SWEEP, cars=[value]),
    "warm": lambda value: replace(SWEEP, warm=value),
    "measure": lambda value: replace(SWEEP, measure=value),
    "key of a sweep": lambda value: replace(SWEEP, key=value),
    "steps of a continued job": lambda value: JOB.continued(Snapshot(0, ("0..",)), steps=value),
    "key of a continued job": lambda value: JOB.continued(Snapshot(0, ("0..",)), key=value),
    "step of a snapshot": lambda value: JOB.continued(Snapshot(value, ("0..",))),
}
SHARES: dict[str, Callable[[Any], Any]] = {
    "brake": lambda value: replace(JOB, rule=Nasch(value)),
    "brake ": lambda value: replace(JOB, rule=SlowToStart(value, 0)),
    "stopped": lambda value: replace(JOB, rule=SlowToStart(0, value)),
    "brake  ": lambda value: replace(JOB, rule=Rickert(value, 0)),
    "change": lambda value: replace(JOB, rule=Rickert(0, value)),
    "density": lambda value: replace(JOB, cars=None, density=value),
    "densities": lambda value: replace(SWEEP, cars=None, densities=[value]),
}
SIZES = [getattr(numpy, f"{sign}int{bits}") for sign in ("", "u") for bits in (8, 16, 32, 64)]
FLOATS = [numpy.float16, numpy.float32, numpy.float64, numpy.longdouble]


def of_size(size: Any) -> Any:
    """A strategy for the numbers of a type of numpy."""
    span = numpy.iinfo(size)
    return st.integers(max(-3, span.min), min(70000, span.max)).map(size)


def number_of_type(kind: Any, number: float) -> Any:
    return kind(number)


WHOLE_NUMBERS = st.one_of(st.integers(-3, 70000), st.integers(0, 2**257), st.one_of(*map(of_size, SIZES)))
OF_NUMPY = st.builds(number_of_type, st.sampled_from(FLOATS), st.floats(0, 1, width=16))
REALS = st.one_of(st.floats(), st.floats(0, 1), OF_NUMPY)
WRITTEN = {"1/4": 0.25, "0.25": 0.25, "1e-3": Fraction(1, 1000), " .5 ": 0.5, "-1/4": -0.25, "5/4": 1.25}
EXACT = st.one_of(
    st.fractions(-1, 2, max_denominator=99), st.decimals(-1, 2, places=5), st.decimals(), st.sampled_from([*WRITTEN]),
    st.sampled_from(["1/0", "nan", "inf", "a", "", "1_0", "\u0663", "1e-99999999", "0x1", Decimal("1e-999999")]),
)
OTHERS = st.sampled_from([
    None, True, False, numpy.bool_(True), numpy.bool_(False), Five.FIVE, Five.ONE, Kind.QUARTER, 1j,
    numpy.complex128(0.25), b"5",
    [5], (1,), numpy.array([5]), numpy.array([0.25]), numpy.array(True), numpy.timedelta64(5), numpy.datetime64("2020"),
    object(),
    numpy.str_("1/4"), numpy.array(5), numpy.array(0.25), Odd(5), Odd(1), Indexed(), 5.0, 1.0,
])
ANY = st.one_of(WHOLE_NUMBERS, REALS, EXACT, OTHERS)


def is_single(value: Any, kinds: str) -> bool:
    """Whether this is an array of a single number, without a dimension."""
    return isinstance(value, numpy.ndarray) and value.shape == () and value.dtype.kind in kinds


def plain_whole(value: Any) -> Any:
    """The whole number as Python's own, or None if it is not one."""
    if isinstance(value, (bool, numpy.bool_, enum.Enum, numpy.timedelta64, str)):
        return None
    if isinstance(value, Odd):
        return int.__add__(value, 0)
    if isinstance(value, (int, numpy.integer)) or is_single(value, "iu"):
        return int(value)
    return 5 if isinstance(value, Indexed) else None


def plain_share(value: Any) -> Any:
    """The number as Python's own, or None if it is not one."""
    if isinstance(value, str) and not isinstance(value, enum.Enum):
        return WRITTEN.get(str(value))
    if isinstance(value, Decimal):
        return Fraction(value) if value.is_finite() and abs(value.adjusted()) < 999 else None
    if isinstance(value, (float, Fraction, numpy.floating)) or is_single(value, "f"):
        return value if isinstance(value, Fraction) else float(value)
    return None if isinstance(value, Indexed) else plain_whole(value)


def outcome(make: Callable[[Any], Any], value: Any) -> Any:
    """The file of an input with this value, and whether its copies are equal to it; or the kind of the error."""
    try:
        input = make(value)
        return input.text(), hash(input) == hash(replace(input)), input == replace(input)
    except TrlabError as error:
        assert str(error)
        return type(error)


class Parameters(unittest.TestCase):
    def same(self, makers: Mapping[str, Callable[[Any], Any]], plain: Callable[[Any], Any], value: Any) -> None:
        """Each input has the file that it has with Python's own number, or there is an error if the value is none."""
        number = plain(value)
        for name, make in makers.items():
            expected = ParameterError if number is None else outcome(make, number)
            self.assertEqual(outcome(make, value), expected, (name, value))

    @SETTINGS
    @given(ANY)
    def test_whole_numbers(self, value: Any) -> None:
        # These may be None, and the speeds of a road may be floats: see `test_roads_of_arrays`.
        left = ("speed", "speed ", "speed of a car", "key of a continued job", "steps of a continued job")
        makers = {name: make for name, make in WHOLE.items() if value is not None or name not in left}
        if isinstance(value, (float, numpy.floating, numpy.ndarray)):
            makers.pop("speed of a car", None)
        try:
            hash(value)
        except TypeError:
            makers.pop("step of `at`")  # No dict has it as a key.
        self.same(makers, plain_whole, value)

    @SETTINGS
    @given(ANY)
    def test_probabilities_and_densities(self, value: Any) -> None:
        self.same(SHARES, plain_share, value)

    @SETTINGS
    @given(ANY)
    def test_options_of_runs(self, value: Any) -> None:
        number = plain_whole(value)
        calls: list[Any] = []
        options: list[tuple[Callable[..., object], str]] = [
            *itertools.product((ROADS.run, ROADS.snapshots, ROADS.series), ("every", "first", "workers")),
            *itertools.product([partial(ROADS.time_until, bool)], ("every", "first")),
            *itertools.product((SWEEP.sweep, replace(SWEEP, start=jammed).sweep), ("runners", "workers")),
        ]

        def arguments(call: Callable[..., object], name: str, option_value: Any) -> Union[list[Any], type[Exception]]:
            """The arguments of the program for an option with this value, or the error."""
            calls.clear()
            try:
                call(**{name: option_value})
            except ParameterError:
                self.assertEqual(calls, [])
                return ParameterError
            except InterruptedError:
                pass
            return [*calls]

        def ask(arguments: Sequence[str], text: str) -> None:
            calls.append(arguments)
            raise InterruptedError

        def run_all(jobs: Sequence[Job], call: Callable[[Job], object], at_once: int) -> list[object]:
            calls.append(at_once)
            return [call(job) for job in jobs]

        with ExitStack() as patched:
            for name in "jobs.ask", "jobs.ask_for_bytes", "jobs.ask_by_line", "sweeps.ask":
                patched.enter_context(mock.patch(f"trlab._inputs.{name}", ask))
            patched.enter_context(mock.patch("trlab._runs.many.run_all", run_all))
            for call, name in options:
                expected = ParameterError if number is None else arguments(call, name, number)
                self.assertEqual(arguments(call, name, value), expected, (call, name, value))

    @SETTINGS
    @given(
        st.lists(st.one_of(st.none(), st.integers(0, 5)), min_size=1, max_size=9),
        st.sampled_from(SIZES + FLOATS + [object]),
    )
    def test_roads_of_arrays(self, cells: list[Any], kind: Any) -> None:
        empty = numpy.nan if kind in FLOATS else None if kind is object else -1
        if kind in SIZES and numpy.iinfo(kind).min == 0 and None in cells:
            return
        array = numpy.array([empty if cell is None else cell for cell in cells], dtype=kind)
        if not set(cells) - {0, 1}:
            for road in array, list(array), cells:
                self.assertRaisesRegex(ParameterError, "0 is a stopped car", replace, ROADS, start=road, length=None)
            return
        job = replace(ROADS, start="".join("." if cell is None else str(cell) for cell in cells), length=None)
        for road in array, array[None, :], list(array), array.tolist(), cells, tuple(cells), job.road():
            job_of_array = replace(ROADS, start=road, length=None)
            self.assertEqual(job_of_array, job)
            self.assertEqual(hash(job_of_array), hash(job))
            self.assertEqual(job_of_array.text(), job.text())
            self.assertEqual(job_of_array.road(), [cells])
        several: list[Any] = [array[None, :], [array, array], array[None, None, :]]
        for roads in several:
            sweep = sweep_of_any(limit=5, length=len(cells), rule=Nasch(0), warm=1, measure=1, start=roads)
            self.assertEqual(sweep, replace(sweep, start=[cells] * len(roads)))
            self.assertEqual({job.text().split("\n")[3] for job in sweep.jobs()}, {job.text().split("\n")[3]})


class WeakPromotion(unittest.TestCase):
    @unittest.skipIf("NPY_PROMOTION_STATE" in os.environ, "these tests run under one of the two rules of promotion now")
    def test_the_same_with_the_rules_of_numpy_2(self) -> None:
        environment = {**os.environ, "NPY_PROMOTION_STATE": "weak", "PYTHONPATH": os.pathsep.join(sys.path)}
        command = [sys.executable, "-B", "-m", "unittest", "tests.test_parameters"]
        process = subprocess.run(
            command, cwd=Path(__file__).parents[1], env=environment, stderr=subprocess.PIPE, text=True
        )
        self.assertEqual(process.returncode, 0, process.stderr)


class KnownPitfalls(unittest.TestCase):
    def test_small_integers_of_numpy(self) -> None:
        warnings.simplefilter("ignore", TrlabWarning)
        plain = Job(limit=5, rule=Nasch(0.1), steps=100, length=100000, cars=60000)
        sizes: list[tuple[Any, Any]] = [
            (numpy.int32(100000), 60000), (numpy.int8(100), 50), (numpy.uint16(40000), numpy.uint16(30000))
        ]
        for length, cars in sizes:
            job, plain = replace(plain, length=length, cars=cars), replace(plain, length=int(length), cars=int(cars))
            self.assertEqual(job, plain)
            self.assertEqual(job.text(), plain.text())
            self.assertEqual(job.cells(), int(length))
        sweep = sweep_of_any(
            limit=5, rule=Nasch(0), length=numpy.uint16(40000), lanes=2, densities=[0.5001], warm=0, measure=1
        )
        self.assertEqual(sweep.counts(), [40008])
        sweep = replace(SWEEP, warm=numpy.uint16(60000), measure=numpy.uint16(10000), start=random_cells(1))
        self.assertEqual([job.steps for job in sweep.jobs()], [70000])

    def test_stored_values_are_those_of_python(self) -> None:
        small: Any = numpy.int8
        job = job_of_any(
            limit=small(5), length=numpy.uint8(9), density=numpy.float32(0.5), steps=numpy.int64(5), lanes=small(2),
            rule=Rickert(numpy.float16(0.5), Decimal("0.1")), key=numpy.uint64(2**63),
            start=random_cells(small(1), small(2)), at={small(3): Nasch(small(1))},
        )
        numbers = [job.limit, job.length, job.steps, job.lanes, job.key, job.start.speed, job.start.seed]
        self.assertEqual({type(number) for number in [*numbers, *job.at, job.at[3].brake]}, {int})
        self.assertIs(type(job.density), float)
        self.assertIs(type(job.rule.brake), float)
        self.assertEqual(job.rule.change, Fraction(1, 10))
        sweep: Any = replace(SWEEP, cars=None, densities=numpy.linspace(0, 1, 3, dtype="f"), warm=small(3))
        self.assertEqual({type(number) for number in sweep.densities}, {float})
        self.assertIs(type(sweep.warm), int)
        of_array: Any = replace(SWEEP, cars=numpy.array([3, 4]))
        self.assertEqual({type(number) for number in of_array.cars}, {int})

    def test_an_occupancy_is_not_a_road(self) -> None:
        lists = [0, 1, 0, 1], [0, 0, 0], [1, 1], [[0, 1], [1, 0]], (0, 1.0), [True, False], [None, True]
        for road in (
            *lists, [0, numpy.bool_(True), None], *map(numpy.array, lists), numpy.zeros(5), numpy.ones((2, 5), bool),
        ):
            message = "0 is a stopped car|says whether a car is there|a speed must be a whole number"
            self.assertRaisesRegex(ParameterError, message, replace, ROADS, start=road, length=None)
        for full in "000", ["01", "10"], "111":
            job = replace(ROADS, start=full, length=None)
            self.assertEqual(job.count(), job.cells())
            self.assertEqual(replace(job, steps=5).count(), job.cells())
            self.assertEqual(job.continued(job.run()[-1]).count(), job.cells())

    def test_speeds_of_snapshots_are_roads(self) -> None:
        two_lanes = Job(limit=5, length=20, lanes=2, cars=9, start=random_cells(1), rule=Rickert(0.25, 1), steps=5)
        for job in ROADS, two_lanes:
            snapshots = job.run()
            for array in snapshots.speeds(), snapshots.speeds("int16", empty=-1):
                again = Job(limit=5, start=array[-1], rule=job.rule, steps=5)
                self.assertEqual(again, Job(limit=5, start=snapshots[-1].lanes, rule=job.rule, steps=5))
            with self.assertRaisesRegex(ParameterError, r"shape .* not \(\d+, [12], "):
                replace(ROADS, start=snapshots.speeds(), length=None)

    def test_numbers_of_many_digits(self) -> None:
        for make in (*WHOLE.values(), *SHARES.values()):
            for number in 10**5000, -(10**5000), Odd(10**5000):
                self.assertIs(outcome(make, number), ParameterError)
        for written in "1e-99999999", Decimal("1e-999999"), Decimal("1e-99999999"), "0." + 9999 * "1":
            self.assertRaisesRegex(ParameterError, "brake must be a number between 0 and 1", Nasch, written)

    def test_a_density_of_less_than_one_car(self) -> None:
        message = "on 100 cells is less than one car: the lowest density above 0 is 0.01 there"
        with self.assertRaisesRegex(ParameterError, message):
            replace(ROADS, start=random_cells(1), length=100, density=0.004).text()
        sweep = replace(SWEEP, cars=None, length=100, lanes=1, densities=[0, 0.006])
        self.assertEqual(sweep.counts(), [0, 1])
        self.assertRaisesRegex(ParameterError, message, replace, sweep, densities=[0, 1e-9])

    def test_a_wrong_option_runs_nothing(self) -> None:
        wrong_options: list[dict[str, Any]] = [
            {"every": -1}, {"workers": 17}, {"every": None}, {"first": 31}, {"every": 500001}, {"workers": True},
        ]
        for options in wrong_options:
            with mock.patch("trlab._runs.processes.Child", side_effect=AssertionError):
                self.assertRaisesRegex(ParameterError, "(every|first|workers) must be", JOB.run, **options)
                self.assertRaisesRegex(ParameterError, "(every|first|workers) must be", JOB.snapshots, **options)
                self.assertRaisesRegex(ParameterError, "(every|first|workers) must be", JOB.series, **options)

    def test_a_road_of_two_lanes_sets_lanes_and_length(self) -> None:
        job = replace(ROADS, start=["0..", "..1"], length=None)
        self.assertEqual(job.lanes, 2)
        self.assertEqual(job.length, 3)
        self.assertEqual(job.cells(), 6)
        self.assertEqual(replace(job, steps=7).lanes, 2)
        contradictions: list[dict[str, Any]] = [{"lanes": 2}, {"length": 4}, {"cars": 2}, {"density": 0.5}]
        for parameters in contradictions:
            self.assertRaisesRegex(
                ParameterError, "leave", Job, limit=5, start="0..", rule=Nasch(0), steps=1, **parameters
            )


if __name__ == "__main__":
    unittest.main()
