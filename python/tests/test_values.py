"""Inputs and results as Python values: you can compare, hash, pickle, slice and add them, and their constructors check
them."""
import builtins
import hashlib
import os
import pickle
import random as standard_random
import re
import tempfile
import unittest
from collections.abc import Callable
from concurrent.futures import ProcessPoolExecutor
from dataclasses import replace
from multiprocessing import Pool
from pathlib import Path
from typing import Any
from unittest import mock

import trlab
from tests.expected import NEEDS_TWO_LANES
from tests.skips import needs, needs_pools
from tests.waiting import LIMIT
from trlab import (
    Job, Nasch, Own, Snapshot, Snapshots, Point, RejectedInputError, RenamedError, Rickert, SlowToStart, Sweep, Table,
    Window,
)
from trlab import (
    InitialState, ParameterError, ProgramError, check, explain, find_program, jammed, random_cells, version,
)
from trlab._runs.calls import ask

JOB = Job(limit=5, length=20, density=0.2, start=random_cells(1), rule=Nasch(0.25), steps=9, at={4: Nasch(0)})
SWEEP = Sweep(limit=5, length=20, rule=Nasch(0), warm=9, measure=9, cars=[1, 2, 4])
STOP = "motion\nnum r0, 0\ngo r0\n"


class Values(unittest.TestCase):
    def test_equal_inputs_are_equal_and_hash_alike(self) -> None:
        for first, second in (
            (random_cells(1), random_cells(1)),
            (JOB, replace(JOB, start=random_cells(1), at={4: Nasch(0)})),
            (replace(SWEEP, cars=[1]), replace(SWEEP, cars=(1,))),
            (Job(limit=5, start=[0, -1], rule=Nasch(0), steps=1),
             Job(limit=5, start=(0, None), rule=Nasch(0), steps=1)),
        ):
            self.assertEqual(first, second)
            self.assertEqual(hash(first), hash(second))
        self.assertNotEqual(random_cells(1), random_cells(2))
        self.assertNotEqual(JOB, replace(JOB, start=jammed))
        self.assertEqual(len({JOB, replace(JOB), replace(JOB, key=1)}), 2)

    def test_all_can_be_pickled(self) -> None:
        for value in JOB, SWEEP, random_cells(3), JOB.run(), JOB.series(every=3), SWEEP.sweep():
            self.assertEqual(pickle.loads(pickle.dumps(value)), value)
        table = pickle.loads(pickle.dumps(SWEEP.sweep()))
        self.assertIs(type(table), Table)
        self.assertEqual(table.kind, Point)

    def test_errors_can_be_pickled(self) -> None:
        with self.assertRaises(RejectedInputError) as caught:
            replace(JOB, rule=Rickert(0, 0)).run()
        for error in caught.exception, ProgramError(4, "full"):
            copy = pickle.loads(pickle.dumps(error))
            self.assertEqual(type(copy), type(error))
            self.assertEqual(str(copy), str(error))
            self.assertEqual(vars(copy), vars(error))

    @needs_pools
    def test_errors_come_out_of_other_processes(self) -> None:
        rejected = replace(JOB, rule=Rickert(0, 0))
        with ProcessPoolExecutor(1) as processes:
            with self.assertRaises(RejectedInputError) as caught:
                list(processes.map(Job.run, [JOB, rejected]))
        self.assertEqual(caught.exception.line, 5)
        self.assertEqual(caught.exception.cause, NEEDS_TWO_LANES)
        with Pool(1) as processes:
            self.assertRaisesRegex(
                RejectedInputError, "fault line 5 cause 4", processes.map_async(Job.run, [JOB, rejected]).get,
                timeout=LIMIT,
            )

    def test_parts_and_sums_keep_their_type(self) -> None:
        table, snapshots = SWEEP.sweep(), JOB.run()
        for part in table[:2], table[::-1], table + table[1:], table.copy():
            self.assertIs(type(part), Table)
            self.assertEqual(part.kind, Point)
        self.assertEqual(table[:2] + table[2:], table)
        self.assertEqual(table[1].cars, 2)
        for cut in snapshots[3:], snapshots + snapshots, snapshots.copy():
            self.assertIsInstance(cut, Snapshots)
        self.assertEqual(snapshots[:3] + snapshots[3:], snapshots)
        self.assertIs(type(snapshots[0]), Snapshot)

    def test_a_long_result_has_a_short_name(self) -> None:
        self.assertEqual(repr(JOB.run()), "<10 snapshots of 1 x 20 cells, steps 0 to 9>")
        self.assertEqual(repr(SWEEP.sweep()), "<table of 3 Points>")
        self.assertEqual(repr(Table(Window)), "<table of 0 Windows>")
        self.assertEqual(repr(Snapshots()), "<no snapshots>")

    def test_a_star_import_leaves_names_of_python(self) -> None:
        names: dict[str, object] = {}
        exec("from trlab import *", names)
        self.assertFalse({"map", "random"} & set(names))
        self.assertTrue(set(trlab.__all__) <= set(names))
        self.assertIs(names.get("map", builtins.map), map)
        self.assertIsNot(trlab.random_cells, standard_random.random)


class Construction(unittest.TestCase):
    def test_a_probability_that_files_would_round_to_0_or_1(self) -> None:
        for number, nearest in (1e-12, 0), (1 - 1e-12, 1):
            self.assertRaisesRegex(ParameterError, f"brake is .*, which is {nearest} in multiples", Nasch, number)
        self.assertEqual(Nasch(2**-31).lines(), ["rule nasch 1"])

    def rejects(
        self, error: type[Exception], name: str, call: Callable[..., object], *others: object, **values: object
    ) -> None:
        with self.assertRaisesRegex(error, name):
            call(*others, **values)

    def test_numbers_are_in_their_ranges(self) -> None:
        job: dict[str, Any] = dict(limit=5, length=10, cars=1, rule=Nasch(0), steps=1)
        for name, values in {
            "limit": (0, 36), "length": (0, 100001), "steps": (-1,), "lanes": (0, 3), "cars": (-1, 11),
            "key": (-1, 2**256)
        }.items():
            for value in values:
                self.rejects(ValueError, name, Job, **{**job, name: value})
        for name in "limit", "length", "steps", "cars":
            self.rejects(TypeError, f"{name} must be a whole number, .*, not 1.0", Job, **{**job, name: 1.0})
        sweep: dict[str, Any] = dict(limit=5, length=10, rule=Nasch(0), warm=0, measure=1, cars=[1])
        wrong: dict[str, object] = dict(warm=-1, measure=0, cars=[11], length=100001, limit=36, lanes=3, key="7")
        for name, wrong_value in wrong.items():
            self.rejects(ValueError, name, Sweep, **{**sweep, name: wrong_value})
        for name in "limit", "length", "warm", "measure":
            self.rejects(TypeError, f"{name} must be a whole number, .*, not 1000.0", Sweep, **{**sweep, name: 1e3})
        self.rejects(ValueError, "at least one point", Sweep, **{**sweep, "cars": []})
        for no_list in 20, "20":
            self.rejects(
                TypeError, "cars must be a list with a number for each point", Sweep, **{**sweep, "cars": no_list}
            )
            self.rejects(TypeError, "densities must be a list", Sweep, **{**sweep, "cars": None, "densities": no_list})

    def test_the_largest_numbers_are_those_of_the_program(self) -> None:
        lines = ["limit 35", "length 100000", "lanes 1", "rule nasch 0", "warm 0", "measure 1", "cars 100000"]
        self.assertTrue(ask(["sweep"], "\n".join(["sweep 1", "key " + 64 * "0", *lines])))
        for changed_line in "limit 36", "length 100001", "measure 500001", "cars 100001":
            name = changed_line.split(" ")[0]
            changed = [changed_line if line.startswith(name + " ") else line for line in lines]
            self.assertRaisesRegex(
                RejectedInputError, "^fault line ", ask, ["sweep"], "\n".join(["sweep 1", "key " + 64 * "0", *changed])
            )

    def test_a_probability_is_checked_in_the_constructor(self) -> None:
        for call in (
            (lambda: Nasch(25)), (lambda: SlowToStart(0, 2)), (lambda: Rickert(-1, 0)), (lambda: Rickert(0, "5/4")),
        ):
            self.assertRaisesRegex(ValueError, "(brake|stopped|change) must be between 0 and 1", call)

    def test_values_that_are_not_numbers(self) -> None:
        for probability in "a quarter", "1/0", float("nan"), float("inf"):
            self.rejects(
                ValueError, re.escape(f"brake must be a number between 0 and 1, not {probability!r}"), Nasch,
                probability,
            )
            self.rejects(ValueError, "density must be a number between 0 and 1", replace, JOB, density=probability)
        self.rejects(TypeError, "brake must be a number between 0 and 1, not None", Nasch, None)
        self.rejects(TypeError, "key must be a whole number or 64 hexadecimal digits, not 1.0", replace, JOB, key=1.0)

    def test_cars_or_a_density(self) -> None:
        wrong_cars: list[dict[str, Any]] = [{}, {"cars": 1, "density": 0.1}]
        for cars in wrong_cars:
            self.assertRaisesRegex(
                ValueError, "either `cars` or `density`", Job, limit=5, length=10, rule=Nasch(0), steps=1, **cars
            )

    def test_options_have_names(self) -> None:
        # A reader of `run(10)` cannot know whether 10 is a number of steps or of threads.
        calls: list[Callable[..., object]] = [JOB.run, JOB.snapshots, JOB.series, SWEEP.sweep]
        for call in calls:
            self.assertRaisesRegex(TypeError, "positional argument", call, 1)

    def test_old_names_name_the_new_ones(self) -> None:
        for name, new in ("pictures", "snapshots"), ("wait", "time_until"):
            self.rejects(RenamedError, f"a job no longer has `{name}`: use `{new}", getattr, JOB, name)
        self.assertFalse(hasattr(JOB, "nothing"))

    def test_a_road_has_one_lane_or_two(self) -> None:
        job: dict[str, Any] = dict(limit=5, rule=Nasch(0), steps=1)
        for road in (
            [[[[0]]]], [[0], [0], [0]], ["0", "0", "0"], [0.5], [True, False], [-2], [], [[], []], "", 7, None, {0: 5},
            b"0",
        ):
            self.rejects(ValueError, "a road is a list of speeds", Job, **job, start=road)
        for road in [[0, 0], [0]], [[0], []], ["0.", "0"]:
            self.rejects(ValueError, "the lanes have [12] and [01] cells", Job, **job, start=road)
        self.rejects(ValueError, "1 to 100000 cells, not 100001", Job, **job, start=100001 * ".")

    def test_no_car_is_faster_than_the_limit(self) -> None:
        job: dict[str, Any] = dict(limit=5, rule=Nasch(0), steps=1)
        for start in [6], [[None], [36]]:
            self.rejects(ValueError, "the limit is 5 cells per step", Job, **job, start=start)
        self.rejects(
            ValueError, "the speed 6, and the limit is 5", Job, **job, length=9, cars=1, start=random_cells(1, speed=6)
        )
        self.rejects(ValueError, "the speed 6, and the limit is 5", replace, SWEEP, start=random_cells(1, speed=6))

    def test_a_start_is_one_of_those_that_are_known(self) -> None:
        self.rejects(ValueError, "one of even, jammed, random, not 'everywhere'", InitialState, placement="everywhere")
        self.rejects(TypeError, "seed must be a whole number, .*, not None", InitialState, placement="random")
        for seed in -1, 2**256:
            self.rejects(ValueError, "seed must be between 0", random_cells, seed=seed)
        self.rejects(ValueError, "a seed is for random cells only", InitialState, placement="jammed", seed=1)
        self.rejects(TypeError, "speed must be a whole number", random_cells, seed=1, speed=0.5)
        self.rejects(ValueError, "speed must be between 0 and 35, not 36", random_cells, seed=1, speed=36)

    def test_later_rules_have_steps_of_the_run(self) -> None:
        job: dict[str, Any] = dict(limit=5, length=10, cars=1, rule=Nasch(0), steps=9)
        self.rejects(ValueError, "must be below `steps`, which is 9, not 9", Job, **job, at={9: Nasch(1)})
        self.rejects(ValueError, "a step of `at` must be at least 0, not -1", Job, **job, at={-1: Nasch(1)})
        self.rejects(
            TypeError, "a step of `at` must be a whole number, at least 0, not 1.5", Job, **job, at={1.5: Nasch(1)}
        )
        self.rejects(TypeError, "not 'nasch'", Job, **job, at={1: "nasch"})
        self.rejects(TypeError, "a rule is Nasch, SlowToStart, Rickert or Own, not 0.25", Job, **{**job, "rule": 0.25})
        self.rejects(TypeError, "a rule is Nasch, SlowToStart, Rickert or Own, not None", replace, SWEEP, rule=None)

    def test_later_rules_cannot_be_changed(self) -> None:
        rules = {4: Nasch(1), 2: Nasch(0)}
        job = Job(limit=5, length=10, cars=1, rule=Nasch(0), steps=9, at=rules)
        rules[5] = Nasch(0.5)
        self.assertEqual(job.at, {2: Nasch(0), 4: Nasch(1)})
        self.assertEqual(list(job.at), [2, 4])
        self.assertEqual(len(job.at), 2)
        with self.assertRaisesRegex(TypeError, "does not support item assignment"):
            job.at[3] = Nasch(0)  # type: ignore[index]
        self.assertEqual(job.at, replace(job).at)
        self.assertEqual(hash(job), hash(replace(job)))
        self.assertEqual(pickle.loads(pickle.dumps(job.at)), job.at)

    def test_a_program_is_checked_in_the_constructor(self) -> None:
        for program, error, message in (
            ("", ValueError, "the motion program is empty"), (" \n", ValueError, "is empty"),
            ("change\nstay\n", ValueError, "this is a change program, and a motion program is needed"),
            (STOP + "end\n", ValueError, "a line `end`: leave it out"),
            ("code 54\ngo r0", ValueError, "is one line"), (STOP.splitlines(), TypeError, "a text, not"),
        ):
            self.rejects(error, message, Own, motion=program)
        self.rejects(
            ValueError, "this is a motion program, and a change program is needed", Own, motion=STOP, change=STOP
        )
        self.assertEqual(Own("code 54\n").lines(), ["rule own", "code 54"])

    def test_programs_between_triple_quotes(self) -> None:
        self.assertEqual(check("\n" + STOP), check(STOP))
        self.assertEqual(Own("\n\n" + STOP).lines(), Own(STOP[:-1]).lines())

    @needs("numpy")
    def test_numbers_of_numpy(self) -> None:
        import numpy

        densities = replace(SWEEP, cars=None, densities=numpy.linspace(0, 1, 3))
        self.assertEqual(densities.text(), replace(SWEEP, cars=[0, 10, 20]).text())
        self.assertEqual(replace(SWEEP, cars=numpy.array([1, 2, 4])).text(), SWEEP.text())
        self.assertEqual(Nasch(numpy.float32(0.25)).lines(), Nasch(0.25).lines())
        seed: Any = numpy.int64(3)
        self.assertEqual(random_cells(seed), random_cells(3))
        self.assertEqual(hash(random_cells(seed)), hash(random_cells(3)))
        for shape in (3, 1, 1), (3, 4):
            self.rejects(
                ValueError, "a road is a list", Job, limit=5, start=numpy.zeros(shape, int), rule=Nasch(0), steps=1
            )


class Descriptions(unittest.TestCase):
    def test_the_description_of_an_input(self) -> None:
        self.assertEqual(explain(JOB), explain(JOB.text()))
        self.assertIn("cause 1", explain("road 2\n"))

    def test_the_version(self) -> None:
        first, logic, digest = version().split("\n")
        self.assertEqual(first, f"trlab {trlab.__version__}")
        self.assertRegex(logic, "^proved in logic [0-9a-f]{16}$")
        self.assertEqual(digest, f"SHA-256 {self.digest(find_program())}")

    def test_the_program_behind_a_script(self) -> None:
        program = find_program()
        with tempfile.TemporaryDirectory() as folder:
            script = Path(folder) / "trlab"
            script.write_text(f'#!/bin/sh\n[ "$1" = --where ] && exec echo {program}\nexec {program} "$@"\n')
            script.chmod(0o755)
            with mock.patch.dict(os.environ, TRLAB=str(script)):
                self.assertEqual(find_program(), str(script))
                self.assertEqual(version().split("\n")[2], f"SHA-256 {self.digest(program)}")

    def digest(self, program: str) -> str:
        return hashlib.sha256(Path(program).read_bytes()).hexdigest()
