"""Results as frames: for any result of a call, each column has the meaning of its name, or there is an error."""
import io
import unittest
from collections import namedtuple
from collections.abc import Callable, Iterable, Sequence
from dataclasses import replace
from fractions import Fraction
from typing import Any, Optional, Union

import trlab
from tests.libraries import numpy, pandas
from tests.studies_for_tests import NO_CARS, known
from trlab import FrameError, Grid, Job, Nasch, Point, Rickert, Sweep, Table, Window, random_cells
from trlab._analysis.frames import Place, tidy
from trlab._studies.roads import KnownRoads

WINDOW = Window(step=10, cars=2, cells=10, steps=10, distance=5, stopped=1, changes=0, flow_millionths=50000, **NO_CARS)


def frame_of(
    result: object, names: Sequence[str] = ("seed",), place: tuple[object, ...] = (0,), roads: Optional[KnownRoads] = None,
    keep: bool = False,
) -> Any:
    """The frame of one result."""
    return tidy({place: result}, list(names), {place: roads or known(0, cars=2)}, keep)


def frame_by_seed(results: Sequence[object]) -> Any:
    results_by_place: dict[Place, object] = {(seed,): result for seed, result in enumerate(results)}
    return tidy(results_by_place, ["seed"], {(seed,): known(seed, 2) for seed in range(len(results))})


def job(density: float, seed: int, key: int) -> Job:
    return Job(limit=5, length=50, density=density, rule=Nasch(0.25), start=random_cells(key), steps=30, key=key)


def windows(job: Job) -> Table[Window]:
    return job.series(every=10)


class Results(unittest.TestCase):
    def test_a_row_in_any_form_is_the_same_row(self) -> None:
        expected = frame_of(Table(Window, [WINDOW]))
        self.assertEqual(expected.flow[0, 10], 0.05)
        self.assertEqual(expected.density[0, 10], 0.2)
        for form in WINDOW, [WINDOW], WINDOW._asdict(), [WINDOW._asdict()], Table(Window, [WINDOW]).to_pandas():
            pandas.testing.assert_frame_equal(frame_of(form), expected)

    def test_counts_and_a_value_of_the_user(self) -> None:
        frame = frame_of({**WINDOW._asdict(), "gap": 4.5})
        self.assertEqual(frame.flow[0, 10], 0.05)
        self.assertEqual(frame.gap[0, 10], 4.5)
        self.assertNotIn("flow_millionths", frame)
        self.assertRaisesRegex(
            FrameError, "`flow` of the result contradicts", frame_of, {**WINDOW._asdict(), "flow": 0.06}
        )

    def test_numbers_flags_and_rows_with_names(self) -> None:
        Measured = namedtuple("Measured", "mean note")
        for result, column, value in (
            (0.5, "value", 0.5), (3, "value", 3), (True, "value", True), (numpy.int64(3), "value", 3),
            (numpy.bool_(True), "value", True),
            (Fraction(1, 4), "value", 0.25), ({"x": 7}, "x", 7), (Measured(2, "a"), "note", "a"),
            (pandas.Series({"x": 7}), "x", 7),
            (trlab.Duration(30, False), "observed", False),
        ):
            self.assertEqual(frame_of(result)[column].iloc[0], value)

    def test_numbers_of_numpy_have_means(self) -> None:
        results = [
            {"x": numpy.int64(seed), "y": numpy.float32(seed), "is_jammed": numpy.bool_(seed > 1), "flag": seed > 0}
            for seed in range(4)
        ]
        (row,) = trlab.means(frame_by_seed(results), "seed").itertuples()
        self.assertEqual(row.n, 4)
        self.assertEqual(row.x, 1.5)
        self.assertEqual(row.y, 1.5)
        self.assertEqual(row.is_jammed, 0.5)
        self.assertEqual(row.flag, 0.75)

    def test_a_small_type_does_not_overflow(self) -> None:
        frame = frame_by_seed([{"x": numpy.int8(100)}, {"x": numpy.int8(120)}])
        self.assertEqual(trlab.means(frame.astype({"x": "int8"}), "seed").x[0], 110)
        counts = frame_of(WINDOW._replace(distance=100, steps=100))
        small = counts.astype({name: "int8" for name in ("cars", "cells", "steps", "distance")})
        self.assertEqual(small.dtypes["cells"], "int8")
        self.assertEqual(trlab.per_run(small).flow[0], 0.1)

    def test_one_missing_value_does_not_remove_a_column(self) -> None:
        without_value: list[dict[str, object]] = [{"x": None}, {}, {"x": numpy.nan}, {"y": 1}]
        for row in without_value:
            frame = frame_by_seed([row, {"x": 1}])
            self.assertRaisesRegex(FrameError, "missing or not finite", trlab.means, frame, "seed")
        self.assertRaisesRegex(FrameError, "not numbers", trlab.means, frame_by_seed([{"x": "1"}, {"x": 1}]), "seed")

    def test_texts_are_not_averaged(self) -> None:
        self.assertEqual(
            list(trlab.means(frame_by_seed([{"x": 1, "note": "a"}, {"x": 3, "note": "b"}]), "seed")),
            ["n", "x", "x_sem"],
        )

    def test_names_that_are_taken(self) -> None:
        for name in "seed", "key", "road", "ensemble", "error", "requested_density":
            self.assertRaisesRegex(FrameError, f"`{name}`, which is a parameter or reserved", frame_of, {name: 0.2})
            self.assertRaisesRegex(FrameError, f"`{name}`", frame_of, pandas.DataFrame({name: [1]}))
            self.assertRaisesRegex(
                FrameError, f"`{name}`", frame_of, pandas.DataFrame({name: [1], "x": 1}).set_index(name)
            )

    def test_a_density_is_that_of_the_road(self) -> None:
        for names, place in (["density"], (0.2,)), (["seed"], (0,)):
            two_densities = pandas.DataFrame({"density": [0.2, 0.3], "step": [1, 2]})
            for result in {"density": 0.9}, {"cars": 7}, {"cells": 50}, {"density": None}, two_densities:
                self.assertRaisesRegex(FrameError, "return results of this input", frame_of, result, names, place)
            frame = frame_of({"density": 0.2, "cars": 2, "x": 1}, names, place)
            self.assertEqual(frame.reset_index().density[0], 0.2)
        self.assertRaisesRegex(FrameError, "results of this input", frame_of, Table(Window, [WINDOW._replace(cars=3)]))

    def test_numbers_in_other_units(self) -> None:
        for result, maximum in ({"flow": 463700}, 1), ({"speed": 36.0}, 35), ({"stopped_share": 50}, 1):
            self.assertRaisesRegex(FrameError, f"is between 0 and {maximum} in the units of trlab", frame_of, result)
        self.assertRaisesRegex(FrameError, "row.flow", frame_of, {"flow_millionths": 463700})

    def test_a_flow_that_is_negative_or_a_text(self) -> None:
        self.assertRaisesRegex(FrameError, "`flow` is between 0 and 1 .* not -0.1", frame_of, {"flow": -0.1})
        self.assertRaisesRegex(FrameError, "flow has values that are not numbers", frame_of, {"flow": "0.4"})

    def test_rows_that_nothing_distinguishes(self) -> None:
        for rows in (
            [{"x": 0}, {"x": 1}], [{"x": 0, "step": 5}, {"x": 1, "step": 5}], pandas.DataFrame({"x": [0, 1]}), [1, 2],
            Table(Window, [WINDOW, WINDOW]), pandas.DataFrame({"x": [0, 1]}, index=pandas.Index([3, 3], name="cell")),
        ):
            self.assertRaisesRegex(
                FrameError, "nothing distinguishes|is not a row with names|several rows with the same", frame_of, rows
            )
        for rows in [{"x": 0, "step": 5}, {"x": 1, "step": 6}], pandas.DataFrame({"x": [0, 1], "step": [5, 6]}):
            self.assertEqual(list(frame_of(rows).index.names), ["seed", "step"])
        frame = frame_of(pandas.DataFrame({"x": [0, 1]}).rename_axis("passing"))
        self.assertEqual(list(frame.index.names), ["seed", "passing"])
        self.assertRaisesRegex(FrameError, "same key", trlab.means, frame, "passing")

    def test_results_that_are_not_rows(self) -> None:
        road = Job(limit=5, length=9, cars=1, rule=Nasch(0), steps=1).run()
        for result in "text", None, ["text"], [[1, 2]], 1j, object(), {1: 2}:
            self.assertRaisesRegex(FrameError, "a result must be|is not a string", frame_of, result)
        for snapshots in road, road[0], list(road):
            self.assertRaisesRegex(FrameError, "job.series", frame_of, snapshots)

    def test_no_rows(self) -> None:
        for empty in Table(Window), [], pandas.DataFrame({"x": []}):
            self.assertRaisesRegex(FrameError, "seed=0: the result has no rows", frame_of, empty)
            frame = frame_of(empty, keep=True)
            self.assertRegex(frame.error[0], "no rows")

    def test_some_points_of_a_sweep(self) -> None:
        roads: KnownRoads = {"key": "0" * 64, "cells": 10, "cars": [1, 2], "ensembles": ["a", "b"]}
        points = [
            Point(cars=cars, cells=10, steps=5, distance=5, stopped=0, changes=0, flow_millionths=0) for cars in (1, 2)
        ]
        frame = frame_of(points, roads=roads)
        self.assertEqual(list(frame.index), [(0, 0.1), (0, 0.2)])
        self.assertEqual([*frame.road, *frame.ensemble], [0, 1, "a", "b"])
        for part in points[:1], points[::-1], [*points, points[0]]:
            self.assertRaisesRegex(FrameError, "of 2 points|return results of this input", frame_of, part, roads=roads)


class Errors(unittest.TestCase):
    def test_a_failed_density_keeps_its_place(self) -> None:
        runs: dict[Place, KnownRoads] = {(at, 0): known(cars, cars, 10, str(at)) for at, cars in ((0.1, 1), (0.5, 5))}
        table = Table(Window, [WINDOW._replace(cars=1)])
        results: dict[Place, object] = {(0.1, 0): table, (0.5, 0): OSError("gone")}
        frame = tidy(results, ["density", "seed"], runs, keep=True)
        self.assertEqual(list(frame.index.get_level_values("density")), [0.1, 0.5])
        self.assertEqual([text for text in frame.error if isinstance(text, str)], ["OSError: gone"])
        with self.assertRaisesRegex(FrameError, "density=0.5.*OSError: gone"):
            trlab.means(frame, "seed")
        self.assertEqual(len(trlab.means(frame[frame.error.isna()], "seed")), 1)

    def test_errors_of_all_choices(self) -> None:
        results: dict[Place, object] = {(0,): OSError("a"), (1,): OSError("b")}
        frame = tidy(results, ["seed"], {(0,): known(0), (1,): known(1)}, keep=True)
        self.assertEqual(list(frame.error), ["OSError: a", "OSError: b"])


class Density(unittest.TestCase):
    def test_speeds_without_cars_are_not_numbers_and_no_defect(self) -> None:
        grid = Grid(job, density=[0, 0.1], seed=range(3))
        means = trlab.means(trlab.per_run(grid.run(call=windows)), "seed")
        self.assertEqual(list(means.n), [3, 3])
        self.assertEqual(means.flow[0.0], 0)
        self.assertEqual(means.flow_sem[0.0], 0)
        for name in "speed", "stopped_share", "change_rate":
            self.assertTrue(numpy.isnan(means[name][0.0]) and numpy.isnan(means[f"{name}_sem"][0.0]))
            self.assertFalse(numpy.isnan(means[name][0.1]))

    def test_the_road_that_ran(self) -> None:
        frame = Grid(job, density=[0.011, "1/3", 0.5], seed=range(2)).run(call=windows)
        self.assertEqual(list(frame.index.get_level_values("density")[::6]), [0.02, 0.34, 0.5])
        self.assertEqual(list(frame.requested_density[::6]), [0.011, 1 / 3, 0.5])
        self.assertNotIn("requested_density", Grid(job, density=[0.1, 0.5], seed=range(2)).run(call=windows))


class Operations(unittest.TestCase):
    """Operations of pandas on a frame, which keep or lose the identity of its rows."""

    def setUp(self) -> None:
        self.frame = trlab.per_run(Grid(job, density=[0.1, 0.2], seed=range(3)).run(call=windows))
        self.means = trlab.means(self.frame, "seed")

    def same(self, frame: Any) -> None:
        pandas.testing.assert_frame_equal(trlab.means(frame, "seed"), self.means)

    def test_operations_that_keep_it(self) -> None:
        flat = self.frame.reset_index()
        self.same(flat.set_index(["density", "seed"]))
        self.same(pandas.concat([self.frame[:2], self.frame[2:]]))
        self.same(pandas.concat([part for _, part in self.frame.groupby("density")]))
        self.same(flat.merge(pandas.DataFrame({"density": [0.1, 0.2]}), on="density").set_index(["density", "seed"]))
        self.same(self.frame[self.frame.flow > 0])
        self.same(self.frame.swaplevel().swaplevel())
        self.same(self.frame.astype({"road": "int8", "ensemble": "category"}).astype({"ensemble": str}))

    def test_a_file_that_is_read_again(self) -> None:
        text = io.StringIO(self.frame.to_csv())
        self.same(pandas.read_csv(text, dtype={"key": str, "ensemble": str}).set_index(["density", "seed"]))
        numbers = self.frame.assign(key=[f"{seed:064x}" for seed in range(6)])
        read = pandas.read_csv(io.StringIO(numbers.to_csv())).set_index(["density", "seed"])
        self.assertRaisesRegex(FrameError, "read_csv.*dtype", trlab.means, read, "seed")

    def test_operations_that_lose_it(self) -> None:
        for lost in (
            self.frame.groupby("density").mean(numeric_only=True), self.frame[["flow"]], self.frame.describe(),
            self.frame.reset_index().pivot_table(index="density", values="flow"), self.means, self.means.reset_index(),
        ):
            self.assertRaisesRegex(FrameError, "has no columns `key`", trlab.means, lost, "density")

    def test_frames_of_two_studies_are_not_averaged(self) -> None:
        def slow_job(density: float, seed: int, key: int) -> Job:
            start = random_cells(key)
            return Job(limit=3, length=50, density=density, rule=Nasch(0.25), start=start, steps=30, key=key + 1)

        slow = trlab.per_run(Grid(slow_job, density=[0.1, 0.2], seed=range(3)).run(call=windows))
        of_other_seeds = slow.rename(index=lambda seed: seed + 3, level="seed")
        for other, message in (slow, "two rows are"), (of_other_seeds, "different `ensemble`"):
            both = pandas.concat([self.frame, other])
            self.assertRaisesRegex(FrameError, message, trlab.means, both, "seed")
        named = pandas.concat({5: self.frame, 3: slow}, names=["limit"])
        self.assertEqual(list(trlab.means(named, "seed").index.names), ["limit", "density"])
        self.assertRaisesRegex(FrameError, "different `ensemble`", trlab.means, named, ["limit", "seed"])


class Ensembles(unittest.TestCase):
    def ensembles(self, make: Callable[..., Union[Job, Sweep]], **parameters: Iterable[Any]) -> set[tuple[str, ...]]:
        return {tuple(roads["ensembles"]) for roads in Grid(make, **parameters)._runs.values()}

    def test_repetitions_have_one(self) -> None:
        self.assertEqual(len(self.ensembles(job, density=[0.1], seed=range(5))), 1)

    def test_any_other_difference_is_another_one(self) -> None:
        job = Job(limit=5, length=20, cars=4, rule=Rickert(0.25, 0), steps=9, lanes=2)
        other_jobs = [
            job, replace(job, limit=4), replace(job, length=21), replace(job, cars=5), replace(job, rule=Rickert(0.25, 1)),
            replace(job, steps=10), replace(job, start=trlab.moving), replace(job, start=trlab.jammed),
            replace(job, start=random_cells(3)), replace(job, at={3: Rickert(0, 0)}),
            replace(job, length=40, lanes=1, rule=Nasch(0.25)),
        ]
        of_jobs = self.ensembles(
            lambda at, seed, key: replace(other_jobs[at], key=key), at=range(len(other_jobs)), seed=[0, 1]
        )
        self.assertEqual(len(of_jobs), len(other_jobs))
        sweep = Sweep(limit=5, length=20, rule=Nasch(0.25), warm=3, measure=6, cars=[4])
        other_sweeps = [
            sweep, replace(sweep, warm=4), replace(sweep, measure=7), replace(sweep, cars=[5]),
            replace(sweep, start=random_cells(1)),
        ]
        of_sweeps = self.ensembles(
            lambda at, seed, key: replace(other_sweeps[at], key=key), at=range(len(other_sweeps)), seed=[0, 1]
        )
        self.assertEqual(len(of_sweeps | of_jobs), len(other_sweeps) + len(other_jobs))


if __name__ == "__main__":
    unittest.main()
