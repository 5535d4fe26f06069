"""Means against plain Python: they are equal, or there is an error."""
import functools
import io
import math
import os
import random
import statistics
import subprocess
import sys
import unittest
from collections.abc import Callable, Mapping, Sequence
from pathlib import Path
from typing import Optional

import trlab
from tests.libraries import hypothesis, numpy, pandas
from tests.studies_for_tests import NO_CARS, Study, known, studies
from trlab import FrameError, Grid, Job, Nasch, ParameterError, Table, Window, random_cells
from trlab._analysis.columns import COUNTS, LANE_SUMS
from trlab._analysis.frames import Place, tidy
from trlab._analysis.means import mean_and_sem

given, st = hypothesis.given, hypothesis.strategies

MANY = hypothesis.settings(max_examples=25, deadline=None, database=None, derandomize=True)
FEW = hypothesis.settings(max_examples=12, deadline=None, database=None, derandomize=True)

Call = tuple[Callable[[], pandas.DataFrame], bool]
"""A call, and whether it is harmless."""


def as_dict(means: pandas.DataFrame, column: str = "flow") -> dict[Place, Sequence[float]]:
    """The number, mean and standard error of a column by place, which is a tuple of the parameters."""
    rows = means[["n", column, f"{column}_sem"]].itertuples(name=None)
    return {(place if isinstance(place, tuple) else (place,)): numbers for place, *numbers in rows}


def runs_by_seed(**columns: Sequence[object]) -> pandas.DataFrame:
    """A frame of two repetitions with these columns."""
    identity: dict[str, object] = {"seed": [0, 1], "key": ["a", "b"], "road": 0, "ensemble": "e"}
    return pandas.DataFrame({**identity, **columns}).set_index("seed")


def window_until(step: int) -> Window:
    """The 10 steps until this one, of one car on 10 cells."""
    return Window(
        step=step, cars=1, cells=10, steps=10, distance=5, stopped=0, changes=0, flow_millionths=0, **NO_CARS
    )


def frame_of(rows: Sequence[Window]) -> pandas.DataFrame:
    """The frame of the windows of one run."""
    results: dict[Place, object] = {(0,): Table(Window, rows)}
    return tidy(results, ["seed"], {(0,): known(0)})


def at_random(frame: pandas.DataFrame, order: random.Random) -> pandas.DataFrame:
    """The rows of a frame in a random order."""
    rows = list(range(len(frame)))
    order.shuffle(rows)
    return frame.iloc[rows]


means_of_all = functools.partial(trlab.means, mixed=True)
"""Means of the runs of random studies, which are so short that their flows may differ by any amount."""


class Defects:
    """Wrong calls for the runs of a study, in some of which one row is wrong: each call by its name, and whether it is
    harmless."""

    def __init__(self, study: Study, row: int) -> None:
        self.study, self.row, self.frame, self.group = study, row, study.frame, list(study.names)
        self.runs = trlab.per_run(study.frame)
        self.is_one, self.is_one_seed = len(self.runs) == 1, study.seeds == 1
        self.level = self.group[0] if self.group else "seed"

    def in_row(self, wrong: object, right: object) -> list[object]:
        """The values of a column that is wrong in this row."""
        return [wrong if number == self.row else right for number in range(len(self.runs))]

    def with_row(self, column: str, wrong: object, right: object) -> pandas.DataFrame:
        """The means of runs of which one has a wrong value."""
        return means_of_all(self.runs.assign(**{column: self.in_row(wrong, right)}), "seed")

    def all(self) -> dict[str, Call]:
        return {**self.of_calls(), **self.of_values(), **self.of_columns(), **self.of_rows(), **self.of_parameters()}

    def of_calls(self) -> dict[str, Call]:
        """Means over wrong rows or levels."""
        frame, runs = self.frame, self.runs
        return {
            "windows": (lambda: means_of_all(frame.droplevel("step"), "seed"), len(frame) == len(runs)),
            "over windows": (lambda: means_of_all(frame, ["seed", "step"]), False),
            "windows per run twice": (lambda: trlab.per_run(runs), False),
            "a window twice": (lambda: trlab.per_run(pandas.concat([frame, frame.iloc[[self.row]]])), False),
            "means of means": (lambda: means_of_all(means_of_all(runs, "seed"), self.level), False),
            "means without n": (lambda: means_of_all(means_of_all(runs, "seed")[["flow"]], self.level), False),
            "means with runs": (lambda: means_of_all(pandas.concat([runs, means_of_all(runs, "seed")]), "seed"), False),
            "means of pandas": (lambda: means_of_all(runs.groupby("seed").mean(numeric_only=True), "seed"), False),
            "no index": (lambda: means_of_all(runs.reset_index(), "seed"), False),
            "no such level": (lambda: means_of_all(runs, "sed"), False),
            "no such column": (lambda: means_of_all(runs, "seed", of=["flw"]), False),
        }

    def of_values(self) -> dict[str, Call]:
        """Values that have no mean."""
        runs = self.runs
        flows = runs.flow.where(numpy.arange(len(runs)) != self.row)
        return {
            "a text": (lambda: self.with_row("x", "a", 1), self.is_one),
            "a complex number": (lambda: means_of_all(runs.assign(x=1j), "seed"), False),
            "a list": (lambda: self.with_row("x", [1], 1), False),
            "NaN": (lambda: means_of_all(runs.assign(flow=flows), "seed"), False),
            "NaN of a speed": (lambda: self.with_row("speed", numpy.nan, 1), False),
            "infinite": (lambda: means_of_all(runs.assign(speed=numpy.inf), "seed"), False),
            "None": (lambda: self.with_row("x", None, 1), False),
            "NA": (
                lambda: means_of_all(runs.assign(x=pandas.array(self.in_row(pandas.NA, 1), dtype="Int64")), "seed"), False
            ),
        }

    def of_columns(self) -> dict[str, Call]:
        """Columns that identify a run, and columns that means would replace."""
        runs = self.runs
        return {
            "same keys": (lambda: means_of_all(runs.assign(key="0" * 64), "seed"), self.is_one_seed),
            "no key": (lambda: self.with_row("key", None, "0" * 64), False),
            "keys as numbers": (lambda: means_of_all(runs.assign(key=range(len(runs))), "seed"), False),
            "no road": (lambda: self.with_row("road", None, 0), False),
            "own sem": (lambda: means_of_all(runs.assign(flow_sem=0.0), "seed"), False),
            "own n": (lambda: means_of_all(runs.assign(n=7), "seed"), False),
            "other length": (lambda: self.with_row("steps", 1, 2), self.is_one_seed),
            "other cars": (lambda: self.with_row("cars", 1, 2), self.is_one_seed),
        }

    def of_rows(self) -> dict[str, Call]:
        """Runs that are missing, and runs that are there twice."""
        runs, others = self.runs, [number for number in range(len(self.runs)) if number != self.row]
        is_group_lost = self.is_one_seed and not self.is_one
        return {
            "missing run": (
                lambda: means_of_all(runs.iloc[others], "seed"), is_group_lost or len(runs) == self.study.seeds > 1
            ),
            "doubled": (lambda: means_of_all(pandas.concat([runs, runs.iloc[[self.row]]]), "seed"), False),
            "doubled under another name": (
                lambda: means_of_all(pandas.concat({"a": runs, "b": runs}, names=["of"]), ["of", "seed"]), False
            ),
        }

    def of_parameters(self) -> dict[str, Call]:
        """Parameters that are lost: harmless only if they have one value."""
        runs, group = self.runs, self.group
        is_harmless = not group or len({place[0] for place in self.study.results}) == 1
        without_first = runs.droplevel(group[0]) if group else runs
        levels = [*group, "seed"][1:] or ["seed"]
        renumbered = runs.assign(run=range(len(runs))).set_index("run")
        return {
            "forgotten parameter": (lambda: means_of_all(runs.reset_index().set_index(levels), "seed"), is_harmless),
            "dropped parameter": (lambda: means_of_all(without_first, "seed", unequal=True), is_harmless),
            "a parameter is not a repetition": (lambda: means_of_all(runs, over=group[:1] + ["seed"]), is_harmless),
            "renumbered": (lambda: means_of_all(renumbered, "run"), len(runs) == self.study.seeds),
        }


class Means(unittest.TestCase):
    def same(self, result: Mapping[Place, Sequence[float]], expected: Mapping[Place, Sequence[float]]) -> None:
        """Two results of `as_dict` are equal up to rounding. Without parameters the only place is ()."""
        if set(expected) == {()}:
            result = {(): next(iter(result.values()))}
        self.assertEqual(set(result), set(expected))
        for place, values in expected.items():
            numpy.testing.assert_allclose(result[place], values, rtol=1e-9, atol=1e-12)

    @MANY
    @given(studies(), st.randoms())
    def test_equal_plain_python_in_any_order(self, study: Study, order: random.Random) -> None:
        runs = trlab.per_run(at_random(study.frame, order))
        self.same(as_dict(means_of_all(at_random(runs, order), over="seed")), study.expected())

    @MANY
    @given(studies(), st.randoms())
    def test_equal_plain_pandas(self, study: Study, order: random.Random) -> None:
        runs = at_random(trlab.per_run(study.frame), order)
        means = means_of_all(runs, over="seed", of=["speed", "stopped", "windows"])
        groups = runs.groupby(study.names) if study.names else runs.groupby(lambda _: 0)
        for name in "speed", "stopped", "windows":
            mean, sem = groups[name].mean(), groups[name].sem()
            index = means.index if study.names else mean.index
            numpy.testing.assert_allclose(means[name], mean.loc[index], rtol=1e-9)
            numpy.testing.assert_allclose(means[f"{name}_sem"], sem.loc[index], rtol=1e-9, atol=1e-12)

    @MANY
    @given(studies(), st.data())
    def test_some_missing_runs_change_nothing_else(self, study: Study, data: "st.DataObject") -> None:
        runs = trlab.per_run(study.frame)
        rest = runs[[data.draw(st.booleans()) for _ in range(len(runs))]]
        if not len(rest):
            self.assertRaisesRegex(FrameError, "no rows", trlab.means, rest, "seed")
            return
        sizes = set(rest.groupby(study.names).size()) if study.names else {len(rest)}
        if len(sizes) > 1:
            self.assertRaisesRegex(FrameError, "groups have", trlab.means, rest, "seed")
        means = means_of_all(rest, over="seed", of="flow", unequal=True)
        for place, (n, mean, sem) in as_dict(means).items():
            flows = [row.flow for choice, row in rest.iterrows() if not study.names or choice[:-1] == place]
            self.assertEqual(n, len(flows))
            self.assertAlmostEqual(mean, statistics.fmean(flows))
            self.assertTrue(math.isnan(sem) if n == 1 else abs(sem - statistics.stdev(flows) / n**0.5) < 1e-12)

    @FEW
    @given(studies(), st.data())
    def test_a_defect_is_an_error_or_makes_no_difference(self, study: Study, data: "st.DataObject") -> None:
        row = data.draw(st.integers(0, len(trlab.per_run(study.frame)) - 1))
        defects = Defects(study, row).all()
        for name, (defect, is_harmless) in defects.items():
            if is_harmless:
                self.assertEqual(defect().n.max(), study.seeds - (name == "missing run" and study.seeds > 1), name)
            else:
                with self.assertRaises(FrameError, msg=name):
                    defect()

    @FEW
    @given(studies(), st.data())
    def test_a_failed_choice_is_reported(self, study: Study, data: "st.DataObject") -> None:
        place = data.draw(st.sampled_from(list(study.results)))
        others: dict[Place, object] = {other: rows for other, rows in study.results.items() if other != place}
        with_an_error: dict[Place, object] = {**others, place: OSError("gone")}
        for failed in with_an_error, others:
            frame = tidy(failed, study.fields, study.runs, keep=True)
            (error,) = frame["error"].dropna()
            self.assertIn(error, ("OSError: gone", "no result yet"))
            for call in lambda: trlab.per_run(frame), lambda: trlab.means(frame, "seed"):
                self.assertRaisesRegex(FrameError, f"there is no result at .*{error}", call)

    @FEW
    @given(studies())
    def test_lanes_and_counts_are_added_up(self, study: Study) -> None:
        runs = trlab.per_run(study.frame)
        for (_, run), rows in zip(runs.iterrows(), study.results.values()):
            for name in COUNTS[2:] + LANE_SUMS:
                self.assertEqual(run[name], sum(getattr(row, name) for row in rows))
            self.assertEqual(run.windows, len(rows))
            self.assertEqual(run.cars, rows[0].cars)

    def test_a_missing_window_is_an_error(self) -> None:
        rows = [window_until(step) for step in (10, 20, 30)]
        frame = frame_of(rows)
        self.assertRaisesRegex(FrameError, "do not follow each other at step 30", trlab.per_run, frame.iloc[[0, 2]])
        self.assertEqual(list(trlab.per_run(frame.iloc[1:]).steps), [20])

    def test_windows_that_cannot_be_added_up(self) -> None:
        rows = [window_until(step) for step in (10, 20, 30, 40)]
        frame = frame_of(rows)
        self.assertRaisesRegex(FrameError, r"cannot add up \['gap'\]", trlab.per_run, frame.assign(gap=1))
        self.assertRaisesRegex(FrameError, "cannot add up", trlab.per_run, frame.drop(columns="distance"))
        for name in "distance", "stopped0", "cars":
            self.assertRaisesRegex(
                FrameError, f"`{name}` has 1 values that are missing", trlab.per_run,
                frame.assign(**{name: [1, math.nan, 1, 1]}),
            )
        of_two_keys = frame.assign(key=["a", "a", "b", "b"])
        self.assertRaisesRegex(FrameError, "windows of different steps", trlab.per_run, of_two_keys)

    def test_without_cars_only_values_per_car_are_missing(self) -> None:
        frame = runs_by_seed(cars=[0, 0], flow=[0.0, math.nan], speed=[math.nan, math.nan])
        self.assertRaisesRegex(FrameError, "`flow` has 1 values", trlab.means, frame, "seed")
        self.assertTrue(math.isnan(trlab.means(frame, "seed", of="speed").speed[0]))

    def test_the_missing_run_is_named(self) -> None:
        frame = pandas.DataFrame(
            {"p": [1, 1, 2], "seed": [0, 1, 0], "key": list("abc"), "road": 0, "ensemble": list("xxy"), "x": 0.0}
        )
        with self.assertRaisesRegex(FrameError, r"p=2 \(without seed=1\)"):
            trlab.means(frame.set_index(["p", "seed"]), "seed")

    def test_counts_are_averaged_on_request(self) -> None:
        frame = runs_by_seed(distance=[4, 6], distance0=[1, 3], windows=[2, 2], x=[1.0, 1.0])
        self.assertEqual(list(trlab.means(frame, "seed")), ["n", "x", "x_sem"])
        self.assertEqual(
            trlab.means(frame, "seed", of="distance").iloc[0].to_dict(), {"n": 2, "distance": 5, "distance_sem": 1}
        )

    def test_runs_with_one_name(self) -> None:
        frame = pandas.DataFrame(
            {"seed": [0, 0], "key": list("ab"), "road": 0, "ensemble": "e", "x": [1.0, 2.0]}
        ).set_index("seed")
        self.assertRaisesRegex(FrameError, "two rows are seed=0", trlab.means, frame, "seed")

    def test_a_level_may_have_missing_values(self) -> None:
        columns: dict[str, object] = {
            "p": [None, None, 1.0, 1.0], "seed": [0, 1] * 2, "key": list("abcd"), "x": [1.0, 3.0, 5.0, 7.0],
        }
        frame = pandas.DataFrame({**columns, "road": 0, "ensemble": "e"}).set_index(["p", "seed"])
        self.assertEqual(list(trlab.means(frame, "seed").x), [2, 6])

    def test_a_frame_without_rows_or_numbers(self) -> None:
        frame = runs_by_seed(x=["a", "a"])
        self.assertRaisesRegex(FrameError, "no rows", trlab.means, frame[:0], "seed")
        self.assertRaisesRegex(FrameError, "no column of numbers", trlab.means, frame, "seed")
        self.assertRaisesRegex(FrameError, "`over` is the name", trlab.means, frame, [])

    def test_equal_values_have_no_error(self) -> None:
        mean, sem = mean_and_sem(numpy.array([0.1, 7.0, 0.1, 0.1]), numpy.array([0, 1, 0, 0]))
        self.assertEqual(list(mean), [0.1, 7.0])
        self.assertEqual(sem[0], 0.0)
        self.assertTrue(math.isnan(sem[1]))

    def test_a_large_offset_costs_no_digits(self) -> None:
        mean, sem = mean_and_sem(1e9 + numpy.array([0.0, 1.0] * 50), numpy.zeros(100, dtype=int))
        self.assertEqual(mean[0], 1e9 + 0.5)
        self.assertEqual(round(sem[0], 12), round(statistics.stdev([0.0, 1.0] * 50) / 10, 12))


class Misreadings(unittest.TestCase):
    """Calls that used to return a wrong number without an error."""

    def job(self, density: float, seed: int, key: int) -> Job:
        return Job(limit=5, length=50, density=density, rule=Nasch(0.25), start=random_cells(key), steps=40, key=key)

    def frame(
        self, call: Callable[[Job], object] = lambda job: job.series(every=10), **parameters: Sequence[float]
    ) -> pandas.DataFrame:
        """The results of these jobs: four repetitions at density 0.2, unless `parameters` has others."""
        choices: dict[str, Sequence[float]] = {"density": [0.2], "seed": range(4), **parameters}
        return Grid(self.job, **choices).run(call=call)

    def test_the_error_of_a_mean_is_that_over_runs(self) -> None:
        frame = self.frame()
        self.assertRaisesRegex(FrameError, "windows of one run are correlated", trlab.means, frame, "step")
        means = trlab.means(trlab.per_run(frame), "seed").iloc[0]
        jobs = Grid(self.job, density=[0.2], seed=range(4)).inputs.values()
        flows = [job.series(every=40)[0].flow for job in jobs if isinstance(job, Job)]
        self.assertEqual(means.n, 4)
        self.assertEqual(round(means.flow_sem, 12), round(statistics.stdev(flows) / 2, 12))
        by_window = trlab.means(frame, "seed")
        self.assertRaisesRegex(FrameError, "may not be single runs", trlab.means, by_window, "step")

    def test_runs_of_two_branches(self) -> None:
        frame = trlab.per_run(self.frame(seed=range(10)))
        spread = [0.2, 0.3, 0.4, 0.5, 0.6, 0.7, 0.75, 0.8, 0.8, 0.8]
        for flows in [0.8, 0.4, *8 * [0.2]], [0.8, *9 * [0.21]], [0.26, *9 * [0.38]], spread:
            mixed = frame.assign(flow=flows).drop(columns=["distance"])
            self.assertRaisesRegex(FrameError, "differ too much for one mean: 0.2.*mixed=True", trlab.means, mixed, "seed")
            self.assertAlmostEqual(trlab.means(mixed, "seed", of="flow", mixed=True).flow.iloc[0], sum(flows) / 10)
        rising = [0.3, 0.31, 0.32, 0.33, 0.34, 0.35, 0.36, 0.37, 0.38, 0.39]
        for flows in 10 * [0.0], 10 * [0.2], [0.5, *9 * [0.45]], rising:
            one = frame.assign(flow=flows).drop(columns=["distance"])
            self.assertAlmostEqual(trlab.means(one, "seed", of="flow").flow.iloc[0], sum(flows) / 10)

    def test_normal_flows_are_one_branch(self) -> None:
        frame = trlab.per_run(self.frame(seed=range(8)))
        noise = numpy.random.default_rng(1).normal(size=(300, 8))
        for flows in 0.5 + 0.02 * noise:
            trlab.means(frame.assign(flow=flows), "seed", of="flow")

    def test_columns_of_a_result_are_not_replaced(self) -> None:
        frame = self.frame(lambda job: {"count": 7, "x": 1.0, "x_sem": 0.001})
        self.assertEqual(list(frame["count"]), [7] * 4)
        self.assertRaisesRegex(FrameError, "`x_sem` would be overwritten", trlab.means, frame, "seed")
        self.assertRaisesRegex(
            FrameError, "`n` would be overwritten", trlab.means, frame.rename(columns={"count": "n"}), "seed", of="n"
        )

    def test_a_parameter_and_a_result_of_one_name(self) -> None:
        self.assertRaisesRegex(
            FrameError, "give measured values another name", self.frame, lambda job: {"density": 0.9999}
        )
        self.assertRaisesRegex(FrameError, "give it another name", self.frame, lambda job: {"seed": 1})

    def test_the_density_is_that_of_the_road(self) -> None:
        frame = self.frame(density=[0.011, 0.2])
        self.assertEqual(sorted(set(frame.index.get_level_values("density"))), [0.02, 0.2])
        self.assertTrue((frame.flow <= 5 * frame.index.get_level_values("density")).all())
        self.assertRaisesRegex(ParameterError, "both 1 cars", self.frame, density=[0.011, 0.02, 0.029])

    def test_arithmetic_with_speeds_does_not_overflow(self) -> None:
        speeds = Job(limit=20, length=200, cars=2, rule=Nasch(0), steps=50).run().speeds()
        self.assertEqual(numpy.nanmax(speeds * speeds), 400)
        self.assertGreater(numpy.nanmean(speeds * speeds), 0)
        self.assertTrue(math.isnan(speeds.mean()))

    def test_numbers_of_numpy_and_missing_ones(self) -> None:
        frame = self.frame(
            lambda job: {"x": numpy.int64(job.count()), "y": numpy.nan, "z": None, "flag": numpy.bool_(True)}
        )
        self.assertEqual(trlab.means(frame, "seed", of=["x", "flag"]).x[0.2], 10)
        for name in "y", "z":
            self.assertRaisesRegex(
                FrameError, f"`{name}` has 4 values that are missing", trlab.means, frame, "seed", of=name
            )
        self.assertRaisesRegex(FrameError, "missing or not finite", trlab.means, frame, "seed")

    def test_one_value_does_not_remove_a_column(self) -> None:
        odd_results: list[dict[str, object]] = [{"y": 0, "x": None}, {"y": 0}, {"y": 0, "x": "a"}]
        for odd in odd_results:
            frame = self.frame(lambda job: {"x": 1.0} if job.key % 3 else odd, seed=range(9))
            frame = frame.drop(columns="y")
            self.assertRaisesRegex(FrameError, "missing or not finite|not numbers", trlab.means, frame, "seed")

    def test_a_choice_without_rows_does_not_vanish(self) -> None:
        def windows(job: Job) -> Table[Window]:
            return job.series(every=10)[:0 if job.key % 2 else 4]

        self.assertRaisesRegex(FrameError, "the result has no rows", self.frame, windows, seed=range(9))
        frame = Grid(self.job, density=[0.2], seed=range(9)).run(call=windows, errors="keep")
        self.assertEqual(set(frame.index.get_level_values("seed")), set(range(9)))
        self.assertRaisesRegex(FrameError, "there is no result", trlab.per_run, frame)

    def test_repetitions_of_one_key(self) -> None:
        def forgets(seed: int, key: int) -> Job:
            """A job that ignores the seed and the key."""
            return Job(limit=5, length=50, density=0.2, rule=Nasch(0.25), steps=40)

        def starts(seed: int, key: int) -> Job:
            """A job whose seed decides only where the cars start."""
            return Job(limit=5, length=50, density=0.2, rule=Nasch(0.25), steps=40, start=random_cells(seed))

        self.assertRaisesRegex(ParameterError, "the same run", Grid, forgets, seed=range(5))
        frame = Grid(starts, seed=range(5)).run(call=lambda job: job.series(every=40))
        self.assertRaisesRegex(FrameError, "the same key", trlab.means, frame, "seed")

    def test_a_row_and_its_fields_have_one_flow(self) -> None:
        rows = self.frame(lambda job: job.series(every=40)[0])
        pandas.testing.assert_frame_equal(self.frame(lambda job: job.series(every=40)[0]._asdict()), rows)
        self.assertTrue((rows.flow <= 1).all())


class NumpyTwo(unittest.TestCase):
    def test_means_by_the_promotion_of_numpy_2(self) -> None:
        command = [
            sys.executable, "-B", "-m", "unittest", "-q",
            "tests.test_frames.Means.test_equal_plain_python_in_any_order",
            "tests.test_frames.Means.test_equal_values_have_no_error", "tests.test_tidy", "tests.test_units",
        ]
        environment = {**os.environ, "NPY_PROMOTION_STATE": "weak"}
        process = subprocess.run(
            command, cwd=Path(__file__).parents[1], env=environment, capture_output=True, text=True
        )
        self.assertEqual(process.returncode, 0, process.stderr)


class Strangers(unittest.TestCase):
    """Misreadings that a first-time user made."""

    def roads(self, start: str, seed: int, key: int) -> Job:
        """A job on 100 cells, whose 8 cars begin in a jam or drive freely."""
        road = {"jam": "0" * 8 + "." * 92, "free": ("5" + "." * 9) * 8 + "." * 20}[start]
        return Job(limit=5, rule=Nasch(0.25), start=road, steps=40, key=key)

    def test_roads_with_different_cells_are_not_repetitions(self) -> None:
        frame = Grid(self.roads, start=["jam", "free"], seed=range(3)).run(call=lambda job: job.series(every=40))
        runs = trlab.per_run(frame)
        self.assertEqual(list(trlab.means(runs, over="seed").n), [3, 3])
        with self.assertRaisesRegex(FrameError, "roads with different cells .* drawn=True"):
            trlab.means(runs, over=["start", "seed"])

    def test_roads_that_were_drawn_are_repetitions(self) -> None:
        def make(seed: int, key: int) -> Job:
            cells: list[Optional[int]] = [None] * 100
            for cell in random.Random(seed).sample(range(100), 20):
                cells[cell] = 0
            return Job(limit=5, rule=Nasch(0.25), start=cells, steps=40, key=key)

        runs = trlab.per_run(Grid(make, seed=range(4)).run(call=lambda job: job.series(every=40)))
        self.assertRaisesRegex(FrameError, "drawn=True", trlab.means, runs, over="seed")
        self.assertEqual(list(trlab.means(runs, over="seed", drawn=True).n), [4])

    def test_a_file_that_pandas_reads_is_in_other_units(self) -> None:
        table = Job(limit=5, length=100, cars=20, rule=Nasch(0.25), steps=40).series(every=40)
        read = pandas.read_csv(io.StringIO(table.text()))
        self.assertRaisesRegex(FrameError, "`flow` .* millionths", trlab.to_si, read)
        self.assertEqual(list(trlab.to_si(table.to_pandas()).flow_per_h), [3600 * table[0].flow])

    def test_values_that_contradict_their_counts(self) -> None:
        def make(seed: int, key: int) -> Job:
            return Job(limit=5, length=100, cars=20, rule=Nasch(0.25), steps=40, key=key)

        frame = Grid(make, seed=range(3)).run(call=lambda job: job.series(every=20))
        wrong = frame.assign(speed=frame.speed * 3)
        for call in trlab.to_si, trlab.per_run:
            self.assertRaisesRegex(FrameError, "`speed` is not what the counts", call, wrong)
        runs = trlab.per_run(frame)
        self.assertRaisesRegex(
            FrameError, "`flow` is between 0 and 1", trlab.means, runs.assign(flow=runs.flow * 1e6), "seed"
        )
        best_windows = frame.loc[frame.groupby("seed").flow.idxmax()]
        if best_windows.index.get_level_values("step").nunique() > 1:
            self.assertRaisesRegex(FrameError, "windows of different steps", trlab.per_run, best_windows)

    def test_repetitions_without_random_numbers_are_all_the_same(self) -> None:
        def make(rule: str, start: str, seed: int, key: int) -> Job:
            state = trlab.even if start == "even" else random_cells(key)
            used = {"0": Nasch(0), "1": Nasch(1), "p": Nasch(0.5)}[rule]
            return Job(limit=5, length=100, cars=20, rule=used, steps=9, key=key, start=state)

        for rule in "0", "1":
            with self.assertRaisesRegex(ParameterError, "a rule without random numbers"):
                Grid(make, rule=[rule], start=["even"], seed=range(2))
            self.assertEqual(len(Grid(make, rule=[rule], start=["random"], seed=range(2)).inputs), 2)
        self.assertEqual(len(Grid(make, rule=["p"], start=["even"], seed=range(2)).inputs), 2)

    def test_a_parameter_that_is_not_that_of_the_input(self) -> None:
        def make(limit: int, seed: int, key: int) -> Job:
            return Job(limit=5, length=100, cars=20, rule=Nasch(0.25), steps=40, key=key)

        self.assertRaisesRegex(
            ParameterError, "`limit` is 3, and the input has 5", Grid, make, limit=[3], seed=range(2)
        )


if __name__ == "__main__":
    unittest.main()
