"""Sweeps of any size and from any initial state: each point has the result of its own job or input."""
import hashlib
import unittest
from dataclasses import replace
from statistics import fmean, stdev
from typing import Any, Optional

from tests.expected import NEEDS_TWO_LANES
from tests.skips import needs
from trlab import Nasch, Point, RejectedInputError, Rickert, Sweep, Table, even, jammed, moving, random_cells

SWEEP = Sweep(limit=5, length=60, rule=Nasch(0.25), warm=20, measure=100, cars=[10, 20, 20], key=7)
ROAD: list[Optional[float]] = [0, None, 3, None, None]
OTHER_ROAD: list[Optional[float]] = [None, 2, None, 1, 0]
ROADS = Sweep(limit=5, length=5, rule=Nasch(0.25), warm=3, measure=8, start=[ROAD, OTHER_ROAD])
PAIR: list[list[Optional[float]]] = [[0, None], [None, None]]
PAIRS = Sweep(limit=5, length=2, lanes=2, rule=Rickert(0, 1), warm=0, measure=9, start=3 * [PAIR])


def digest(purpose: str, digits: str, number: int) -> str:
    return hashlib.sha256(f"trlab {purpose} {digits} {number}".encode()).hexdigest()


def lanes_of_points(sweep: Sweep) -> list[str]:
    return ["|".join(job.run()[0].lanes) for job in sweep.jobs()]


class InitialStates(unittest.TestCase):
    def test_keys_and_seeds_are_those_of_the_formula(self) -> None:
        sweep = replace(SWEEP, start=random_cells(3, speed=1))
        for number, job in enumerate(sweep.jobs()):
            self.assertEqual(job.key, digest("point", f"{7:064x}", number))
            self.assertEqual(job.start, random_cells(int(digest("seed", f"{3:064x}", number), 16), speed=1))
            self.assertEqual(job.steps, 120)
            self.assertEqual(job.cars, (sweep.cars or [])[number])
            self.assertEqual(job.rule, sweep.rule)
        upper = replace(sweep, key=64 * "A").jobs()
        self.assertEqual(upper, replace(sweep, key=64 * "a").jobs())
        self.assertEqual(upper[1].key, digest("point", 64 * "a", 1))

    def test_the_table_is_that_of_the_jobs(self) -> None:
        for sweep in (
            replace(SWEEP, start=random_cells(3)), replace(SWEEP, start=jammed), replace(SWEEP, start=moving), ROADS,
            PAIRS,
        ):
            table = sweep.sweep()
            self.assertIs(type(table), Table)
            self.assertEqual(table.kind, Point)
            self.assertEqual(len(table), len(sweep.counts()))
            self.assertEqual([type(point) for point in table], len(table) * [Point])
            for point, job in zip(table, sweep.jobs()):
                snapshots = job.run()[sweep.warm + 1 :]
                speeds = [
                    speed for snapshot in snapshots for lane in snapshot.speeds() for speed in lane if speed is not None
                ]
                self.assertEqual(point.steps, sweep.measure)
                self.assertEqual(point.cells, sweep.length * sweep.lanes)
                self.assertEqual(point.distance, sum(speeds))
                self.assertEqual(point.stopped, speeds.count(0))
                self.assertEqual(point.cars * point.steps, len(speeds))
            self.assertEqual(sweep.sweep(runners=3, workers=2), table)

    def test_equal_counts_are_repetitions(self) -> None:
        sweep = replace(SWEEP, cars=4 * [20], start=random_cells(3))
        self.assertEqual(len({job.key for job in sweep.jobs()}), 4)
        self.assertEqual(len(set(lanes_of_points(sweep))), 4)
        self.assertEqual(len({(point.distance, point.stopped) for point in sweep.sweep()}), 4)

    def test_the_cells_of_the_cars(self) -> None:
        small = replace(SWEEP, length=6, cars=[2, 3])
        self.assertEqual(lanes_of_points(replace(small, start=jammed)), ["00....", "000..."])
        self.assertEqual(lanes_of_points(replace(small, start=moving)), ["5..5..", "5.5.5."])
        self.assertEqual(lanes_of_points(small), ["0..0..", "0.0.0."])
        self.assertEqual(lanes_of_points(ROADS), ["0.3..", ".2.10"])
        self.assertEqual(ROADS.counts(), [2, 3])
        self.assertEqual(PAIRS.counts(), [1, 1, 1])

    def test_an_even_sweep_is_that_of_the_program(self) -> None:
        self.assertEqual(replace(SWEEP, start=even), SWEEP)
        self.assertNotEqual(replace(SWEEP, start=jammed), SWEEP)
        self.assertEqual([part.text() for part in SWEEP.parts()], [SWEEP.text()])

    def test_a_sweep_from_another_state_has_no_file(self) -> None:
        for sweep in replace(SWEEP, start=random_cells(1)), replace(SWEEP, start=moving), ROADS:
            self.assertRaisesRegex(ValueError, r"this sweep does not: use `jobs\(\)`", sweep.text)
            self.assertRaisesRegex(ValueError, r"use `jobs\(\)`", sweep.parts)

    def test_sweeps_compare_and_hash_by_value(self) -> None:
        for first, second in (
            (replace(SWEEP, start=random_cells(1)), replace(SWEEP, start=random_cells(1))), (ROADS, replace(ROADS)),
        ):
            self.assertEqual(first, second)
            self.assertEqual(hash(first), hash(second))
        self.assertNotEqual(replace(SWEEP, start=random_cells(1)), replace(SWEEP, start=random_cells(2)))

    def test_runners_are_one_or_more(self) -> None:
        self.assertRaisesRegex(
            ValueError, "runners must be between 1 and 16, not 0", replace(SWEEP, start=jammed).sweep, runners=0
        )

    def test_the_first_job_that_is_rejected(self) -> None:
        with self.assertRaises(RejectedInputError) as caught:
            replace(SWEEP, rule=Rickert(0, 0), start=jammed).sweep(runners=2)
        self.assertEqual(caught.exception.cause, NEEDS_TWO_LANES)


class Roads(unittest.TestCase):
    def rejects(self, start: object, message: str, **values: Any) -> None:
        with self.assertRaisesRegex(ValueError, message):
            replace(ROADS, start=start, **values)

    def test_a_list_has_a_road_for_each_point(self) -> None:
        self.rejects(ROAD, r"for one road write `\[road\]`")
        self.rejects([], "at least one point")
        self.rejects([ROAD, [5]], "road 1 of `start` has 1 x 1 cells, and the sweep has 1 x 5")
        self.rejects([[ROAD, ROAD]], "road 0 of `start` has 2 x 5 cells, and the sweep has 1 x 5")
        self.rejects([ROAD, [0.5]], "road 1 of `start`: a road is a list of speeds")
        self.rejects([ROAD, ["0"]], "road 1 of `start` has 1 x 1 cells, and the sweep has 1 x 5")
        self.rejects([5 * [6]], "road 0 of `start`: a car has the speed 6, and the limit is 5")
        self.rejects([ROAD], "leave `cars` and `densities` out", cars=[2])
        self.rejects("0.0.0", "for one road write")
        self.assertRaisesRegex(
            ValueError, "has 1 x 2 cells, and the sweep has 2 x 2", replace, PAIRS, start=[[0, None], [0, None]]
        )

    def test_names_of_initial_states_are_no_roads(self) -> None:
        for name in "even", "jammed", "random":
            self.rejects(name, f"`start` is a road, or even, .* without quotation marks, not '{name}'")

    @needs("numpy")
    def test_roads_of_numpy(self) -> None:
        import numpy

        speeds = numpy.array([[0, -1, 3, -1, -1], [-1, 2, -1, 1, 0]])
        self.assertEqual(replace(ROADS, start=speeds), ROADS)
        pairs = numpy.full((3, 2, 2), -1)
        pairs[:, 0, 0] = 0
        self.assertEqual(replace(PAIRS, start=pairs), PAIRS)


class Sizes(unittest.TestCase):
    def test_more_points_than_an_input_has(self) -> None:
        sweep = replace(SWEEP, length=10, warm=0, measure=5, cars=401 * [5])
        first, second, third = sweep.parts()
        self.assertEqual([len(part.cars or []) for part in (first, second, third)], [200, 200, 1])
        self.assertEqual(
            [first.key, second.key, third.key], [7, *(digest("part", f"{7:064x}", number) for number in (1, 2))]
        )
        table = sweep.sweep(runners=2)
        self.assertIs(type(table), Table)
        self.assertEqual(len(table), 401)
        self.assertEqual(table[:200], first.sweep())
        self.assertEqual(table[200:], second.sweep() + third.sweep())
        self.assertNotEqual(table[200:400], table[:200])
        self.assertRaisesRegex(ValueError, r"401 points of 5 steps: use `parts\(\)`", sweep.text)

    def test_more_steps_than_an_input_has(self) -> None:
        sweep = Sweep(limit=1, length=2, rule=Nasch(0), warm=100000, measure=100000, cars=[1, 0, 2])
        self.assertEqual([part.cars for part in sweep.parts()], [(1, 0), (2,)])
        self.assertEqual([point.distance for point in sweep.sweep()], [100000, 0, 0])
        self.assertRaisesRegex(ValueError, r"3 points of 200000 steps: use `parts\(\)`", sweep.text)

    def test_points_within_the_limits_are_one_input(self) -> None:
        for points, steps in (200, 2500), (1, 500000), (2, 250000):
            sweep = replace(SWEEP, warm=0, measure=steps, cars=points * [1])
            self.assertEqual([part.text() for part in sweep.parts()], [sweep.text()])
            self.assertEqual(len(replace(sweep, cars=(points + 1) * [1]).parts()), 2)

    def test_a_point_of_more_steps_than_an_input_has(self) -> None:
        sweep = Sweep(limit=1, length=2, rule=Nasch(0), warm=500000, measure=1, cars=[1, 2])
        self.assertRaisesRegex(ValueError, r"500001: use `jobs\(\)`", sweep.text)
        self.assertEqual([job.steps for job in sweep.jobs()], [500001, 500001])
        moving, stopped = sweep.sweep()
        self.assertEqual(
            moving, Point(cars=1, cells=2, steps=1, distance=1, stopped=0, changes=0, flow_millionths=500000)
        )
        self.assertEqual(stopped, Point(cars=2, cells=2, steps=1, distance=0, stopped=2, changes=0, flow_millionths=0))


class Means(unittest.TestCase):
    def test_points_are_independent_and_have_the_exact_mean(self) -> None:
        # The stationary flow of three cars on eight cells, from all transition probabilities of this ring.
        exact = 387 / 1568
        shape: dict[str, Any] = {"limit": 1, "length": 8, "rule": Nasch(0.25), "warm": 50, "measure": 200}
        for start in random_cells(1), jammed, moving:
            flows = [point.flow for point in Sweep(**shape, cars=200 * [3], start=start).sweep(runners=2)]
            self.assertLess(abs(fmean(flows) - exact), 3 * stdev(flows) / 200**0.5)
            # Neighbours in the table have nothing to do with each other: their correlation is within 3 / sqrt(200).
            pairs = [(flow - exact) * (next_flow - exact) for flow, next_flow in zip(flows, flows[1:])]
            self.assertLess(abs(fmean(pairs)) / stdev(flows) ** 2, 3 / 200**0.5)
