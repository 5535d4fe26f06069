"""The test for drift: its false alarms on noise, the drifts that it finds, and Student's distribution, which it
uses."""
import random
import unittest
from dataclasses import replace
from statistics import fmean

from trlab import Drift, EstimateError, Job, Nasch, ParameterError, Point, RenamedError, Sweep, Table, Window, jammed
from trlab._results.drift import drift_of, tails_of_t


def noise(seed: int, length: int, memory: float = 0.0) -> list[float]:
    """Normal numbers, each of which is correlated with the number before it."""
    numbers, value, values = random.Random(seed), 0.0, []
    for _ in range(length):
        value = memory * value + numbers.gauss(0, 1)
        values.append(value)
    return values


def alarms(length: int, memory: float = 0.0, below: float = 0.05, series: int = 1000) -> float:
    return fmean(drift_of(noise(seed, length, memory)).p < below for seed in range(series))


class FalseAlarms(unittest.TestCase):
    # Of 1000 series 50 are expected, with a standard deviation of 7.
    def test_white_noise(self) -> None:
        for length in 40, 99:
            self.assertTrue(0.03 <= alarms(length) <= 0.07)
        self.assertTrue(0.003 <= alarms(40, below=0.01) <= 0.02)

    def test_noise_with_a_memory_shorter_than_a_batch(self) -> None:
        self.assertTrue(0.02 <= alarms(1000, memory=0.5, series=200) <= 0.09)

    def test_windows_that_are_too_short_give_false_alarms(self) -> None:
        self.assertGreater(alarms(100, memory=0.8, series=200), 0.3)

    def test_the_alarms_are_of_both_signs(self) -> None:
        signs = [drift_of(noise(seed, 40)).z > 0 for seed in range(400)]
        self.assertTrue(150 < sum(signs) < 250)


class Drifts(unittest.TestCase):
    def test_a_slope(self) -> None:
        for seed in range(20):
            values = [value + place / 100 for place, value in enumerate(noise(seed, 500))]
            self.assertTrue(drift_of(values).is_drifting and drift_of(values).z > 5)
            self.assertLess(drift_of(values[::-1]).z, -5)

    def test_a_start_that_fades(self) -> None:
        for seed in range(20):
            values = [value + 5 * 0.95**place for place, value in enumerate(noise(seed, 500))]
            self.assertTrue(drift_of(values).is_drifting and drift_of(values).z < -5)

    def test_the_sum_of_the_definition(self) -> None:
        values = noise(1, 83)
        mean = sum(values) / 83
        total = sum((1 - k / 83) * k * (mean - sum(values[:k]) / k) for k in range(1, 84))
        batches = [sum(values[first : first + 2]) / 2 for first in range(43, 83, 2)]
        sigma = (2 * sum((batch - sum(batches) / 20) ** 2 for batch in batches) / 19) ** 0.5
        self.assertAlmostEqual(drift_of(values).z, 45**0.5 / (83**1.5 * sigma) * total, places=12)

    def test_scale_and_level_have_no_influence(self) -> None:
        values = noise(2, 60)
        for other in [3 * value for value in values], [value + 100 for value in values]:
            self.assertAlmostEqual(drift_of(other).z, drift_of(values).z, places=9)
        self.assertAlmostEqual(drift_of([-value for value in values]).z, -drift_of(values).z, places=9)

    def test_a_series_without_noise(self) -> None:
        for value in 0.1, 0.3, 3:
            self.assertEqual(drift_of(49 * [value]), Drift(0, 1))
        self.assertEqual(drift_of(20 * [1.0] + 60 * [3.0]), Drift(float("inf"), 0))
        self.assertEqual(drift_of(20 * [4.0] + 60 * [3.0]), Drift(float("-inf"), 0))

    def test_a_road_that_leaves_a_jam(self) -> None:
        job = Job(limit=5, length=1000, density=0.08, start=jammed, rule=Nasch(0.25), steps=6000, key=1)
        early, late = job.series(every=10)[:100], job.series(every=100, first=2000)
        self.assertTrue(early.drift().is_drifting and early.drift().z > 0)
        self.assertTrue(early.drift("stopped_share").is_drifting and early.drift("stopped_share").z < 0)
        self.assertFalse(late.drift().is_drifting)
        self.assertAlmostEqual(late.drift("speed").p, late.drift("flow").p)


class Rejected(unittest.TestCase):
    def setUp(self) -> None:
        self.job = Job(limit=5, length=20, cars=4, rule=Nasch("1/4"), steps=160)

    def test_too_few_windows(self) -> None:
        job = Job(limit=5, length=10, cars=2, rule=Nasch(0), steps=39)
        self.assertRaisesRegex(EstimateError, "at least 40 windows, and the series has 39: ", job.series().drift)
        self.assertRaisesRegex(EstimateError, "the series has 0", Table(Window).drift)

    def test_no_series(self) -> None:
        table = Sweep(limit=5, length=10, rule=Nasch(0), warm=1, measure=1, cars=40 * [1]).sweep()
        self.assertRaisesRegex(EstimateError, "this is the table of a sweep", table.drift)
        self.assertRaisesRegex(EstimateError, "this is the table of a sweep", Table(Point).drift)

    def test_windows_of_several_runs(self) -> None:
        table, other = self.job.series(every=2), replace(self.job, cars=5).series(every=2)
        later = replace(self.job, key=1).series(every=4, first=80)
        for windows in (
            table[::2] + table[1::2], table[:20] + table[21:], table + table, table[::-1], table[:60] + other[60:],
            table[:40] + later, table[:40] + table[40:41] + table[40:],
        ):
            self.assertRaisesRegex(EstimateError, "does not follow that of step [0-9]+: ", windows.drift)
        self.assertEqual(table[20:].copy().drift(), self.job.series(every=2, first=40).drift())

    def test_columns_that_cannot_drift(self) -> None:
        table = self.job.series()
        for column in "step", "steps", "cars", "cells", "density", "flow_millionths", "kind", "_asdict", "count":
            message = f"^`column` must be one of flow, speed, .*, not '{column}'"
            self.assertRaisesRegex(ParameterError, message, table.drift, column)
        self.assertRaisesRegex(RenamedError, "flow", table.drift, "passing")
        for column in (
            "distance", "stopped", "changes", "change_rate", "cars0", "distance0", "stopped0", "cars1", "stopped1",
        ):
            self.assertIsInstance(table.drift(column), Drift)

    def test_without_cars_there_is_no_speed(self) -> None:
        empty = replace(self.job, cars=0).series()
        self.assertRaisesRegex(ParameterError, "without cars there is no speed", empty.drift, "speed")
        self.assertEqual(empty.drift(), Drift(0, 1))


class Student(unittest.TestCase):
    def test_values_of_tables(self) -> None:
        for t, freedom, p in (2.2621571628, 9, 0.05), (2.0095752371, 49, 0.05), (4.2968056627, 10, 0.00157):
            self.assertAlmostEqual(tails_of_t(t, freedom), p, places=5)

    def test_closed_forms(self) -> None:
        # With one degree of freedom the tails are an angle, with two a root.
        for t in 0.1, 1, 5, 30:
            self.assertAlmostEqual(tails_of_t(t, 2), 1 - t / (2 + t * t) ** 0.5, places=9)
            self.assertEqual(tails_of_t(-t, 12.5), tails_of_t(t, 12.5))
        self.assertAlmostEqual(tails_of_t(1, 1), 0.5, places=9)
        self.assertAlmostEqual(tails_of_t(0, 20), 1, places=9)
