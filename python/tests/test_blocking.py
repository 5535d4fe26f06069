"""The lower bound for the error of one run: its formula, how close it comes to the scatter of runs, and which tables
are rejected."""
import math
import unittest
from statistics import fmean, stdev
from typing import Any

import trlab
from tests.test_drift import noise
from trlab import Blocking, EstimateError, Job, Nasch, RenamedError, Sweep, Table, Window, random_cells
from trlab._results.blocking import blocking_of


def bounds_of_noise(memory: float, length: int, series: int = 200) -> tuple[float, float]:
    """The mean bound of stationary series, and the standard deviation of their means."""
    bounds, means = [], []
    for seed in range(series):
        # The first numbers still depend on the 0 before them.
        values = noise(seed, length + 1000, memory)[1000:]
        means.append(fmean(values))
        try:
            bounds.append(blocking_of(values).sem_lower_bound)
        except EstimateError:
            pass
    return fmean(bounds), stdev(means)


class Bounds(unittest.TestCase):
    def test_the_formula(self) -> None:
        values = noise(1, 83)
        blocks = [fmean(values[first:first + 5]) for first in range(3, 83, 5)]
        estimate = blocking_of(values)
        self.assertAlmostEqual(estimate.mean, sum(values) / 83)
        self.assertAlmostEqual(estimate.sem_lower_bound, stdev(blocks) / 4)

    def test_independent_values(self) -> None:
        bound, scatter = bounds_of_noise(0, 160)
        # 200 means show their scatter up to 5 percent.
        self.assertTrue(0.85 < bound / scatter < 1.15)

    def test_correlations_that_are_shorter_than_a_block(self) -> None:
        bound, scatter = bounds_of_noise(0.9, 3200)
        naive = 1 / math.sqrt((1 - 0.9**2) * 3200)
        self.assertTrue(0.8 < bound / scatter < 1.1)
        self.assertLess(naive / scatter, 0.3)

    def test_correlations_that_are_longer_than_a_block(self) -> None:
        bound, scatter = bounds_of_noise(0.9, 160)
        self.assertTrue(0.4 < bound / scatter < 0.85)

    def test_runs(self) -> None:
        # Docstrings say how much larger the scatter is on 1000 cells. It takes fewer steps to be seen on 200 cells.
        for density in 0.05, 0.15, 0.4:
            flows, bounds = [], []
            for key in range(60):
                job = Job(
                    limit=5, length=200, density=density, rule=Nasch(0.25), steps=5000, key=key, start=random_cells(key)
                )
                table = job.series(every=10, first=1000)
                flows.append(fmean(row.flow for row in table))
                try:
                    bounds.append(table.blocking().sem_lower_bound)
                except EstimateError:
                    pass
            self.assertGreater(len(bounds), 48)
            self.assertTrue(0.5 < fmean(bounds) / stdev(flows) < 1.2, (density, fmean(bounds) / stdev(flows)))

    def test_equal_values(self) -> None:
        for value in 0.0, 0.1, 7.0:
            self.assertEqual(blocking_of(49 * [value]), Blocking(value, 0.0))
        alternating = blocking_of(32 * [0.0, 1.0])
        self.assertEqual(alternating, Blocking(0.5, 0.0))
        empty = Job(limit=5, length=20, cars=0, rule=Nasch(0), steps=40).series()
        self.assertEqual(empty.blocking(), Blocking(0.0, 0.0))

    def test_columns(self) -> None:
        table = Job(limit=5, length=100, density=0.2, rule=Nasch(0.25), steps=2000, key=1).series(every=20, first=400)
        self.assertEqual(table.blocking(), table.blocking("flow"))
        self.assertAlmostEqual(table.blocking("flow").mean, table.blocking("speed").mean * 0.2)


class Rejected(unittest.TestCase):
    def test_a_drift(self) -> None:
        for values in [*map(float, range(200))], [value + place / 50 for place, value in enumerate(noise(1, 200))]:
            self.assertRaisesRegex(EstimateError, "the series drifts .z = .*, or is too short", blocking_of, values)

    def test_tables_that_are_no_series_of_one_run(self) -> None:
        job = Job(limit=5, length=20, cars=4, rule=Nasch(0.25), steps=100)
        table = job.series(every=2)
        sweep = Sweep(limit=5, length=10, rule=Nasch(0), warm=1, measure=1, cars=40 * [1]).sweep()
        wrong: list[tuple[Table[Any], str]] = [
            (table[:39], "at least 40 windows, and the series has 39: "), (Table(Window), "the series has 0"),
            (table[::-1], "does not follow"), (table + table, "does not follow"), (sweep, "the table of a sweep"),
        ]
        for rows, message in wrong:
            self.assertRaisesRegex(EstimateError, message, rows.blocking)

    def test_the_old_function(self) -> None:
        message = "^trlab no longer has `blocking`: use `table.blocking.* is only a lower bound"
        with self.assertRaisesRegex(RenamedError, message):
            getattr(trlab, "blocking")


if __name__ == "__main__":
    unittest.main()
