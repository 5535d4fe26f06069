"""Grids: keys that depend on the parameters only, and inputs and frames of all choices."""
import hashlib
import math
import os
import pickle
import tempfile
import traceback
import unittest
from collections.abc import Callable
from fractions import Fraction
from pathlib import Path
from typing import Any

import trlab
from tests.skips import needs
from trlab import FrameError, Grid, Job, Nasch, ParameterError, Point, Rickert, SlowToStart, Sweep
from trlab import Rule, Table, Window, key_for, random_cells, read_tables, write_inputs


def job(p: float, density: float, seed: int, key: int) -> Job:
    return Job(limit=5, length=50, density=density, rule=Nasch(p), start=random_cells(key), steps=30, key=key)


def sweep(p: float, seed: int, key: int) -> Sweep:
    return Sweep(limit=5, length=50, rule=Nasch(p), warm=5, measure=20, densities=[0.1, 0.2, 0.4], key=key)


def last(job: Job) -> Table[Window]:
    return job.series(every=20, first=10)


JOBS: dict[str, Any] = {"p": [0.25, "1/2"], "density": [0.1, 0.2, 0.5], "seed": range(4)}
SWEEPS: dict[str, Any] = {"p": [0.25, 0.5], "seed": range(4)}


class Keys(unittest.TestCase):
    def test_the_formula(self) -> None:
        expected = hashlib.sha256(b'chance=1/4\nname="a \\u00e9"\nseed=3\n').hexdigest()
        self.assertEqual(key_for(chance=0.25, name="a é", seed=3), expected)
        self.assertEqual(key_for(), hashlib.sha256(b"").hexdigest())
        # A key that must never change, in any version of Python: studies are repeated with it.
        permanent = "d69b2440e005e182360ccafce1a464cb1153d49152a5e471eb001a041dfaa51c"
        self.assertEqual(key_for(chance=0.25, density=0.1, seed=3), permanent)

    def test_equal_parameters_have_equal_keys(self) -> None:
        seeds: list[Any] = [3, 3.0, Fraction(3)]
        shares: list[Any] = [0.25, Fraction(1, 4)]
        keys = {key_for(seed=seed, p=p) for seed in seeds for p in shares}
        self.assertEqual(keys, {key_for(p=0.25, seed=3)})

    def test_other_parameters_have_other_keys(self) -> None:
        others: list[dict[str, Any]] = [
            {}, {"a": 1}, {"b": 1}, {"a": "1"}, {"a": 2}, {"a": 0.1}, {"a": Fraction(1, 10)}, {"a": 1, "b": 1},
            {"a": "x\nb=1"},
        ]
        self.assertEqual(len({key_for(**parameters) for parameters in others}), len(others))

    def test_values_without_a_key(self) -> None:
        for value in None, [1], math.nan, math.inf, Nasch(0), 1j:
            self.assertRaisesRegex(ParameterError, "must have numbers or texts as values", key_for, a=value)

    @needs("numpy")
    def test_numbers_of_numpy(self) -> None:
        import numpy

        numbers: dict[str, Any] = {"a": numpy.float64(0.1), "b": numpy.int32(3)}
        self.assertEqual(key_for(**numbers), key_for(a=0.1, b=3))


class Inputs(unittest.TestCase):
    def test_an_input_for_each_choice(self) -> None:
        grid = Grid(job, **JOBS)
        self.assertEqual(len(grid.inputs), 24)
        self.assertEqual(repr(grid), "<grid of 24 inputs by p, density, seed>")
        choice, input = list(grid.inputs.items())[7]
        self.assertEqual(choice, (0.25, 0.2, 3))
        self.assertEqual(choice.density, 0.2)
        self.assertEqual(input, job(0.25, 0.2, 3, int(key_for(p=0.25, density=0.2, seed=3), 16)))
        self.assertEqual(len({input.key for input in grid.inputs.values()}), 24)

    def test_a_choice_keeps_its_input_in_a_larger_grid(self) -> None:
        small, large = Grid(job, **JOBS), Grid(job, seed=range(9), density=[0.9, *JOBS["density"]], p=JOBS["p"])
        self.assertTrue(set(small.inputs.values()) < set(large.inputs.values()))

    @needs("pandas")
    def test_names_for_values(self) -> None:
        rules: dict[str, Rule] = {"nasch": Nasch(0.25), "slow": SlowToStart("1/64", 0.75)}
        grid = Grid(lambda rule, key: Job(limit=5, length=50, cars=5, rule=rule, steps=30, key=key), rule=rules)
        self.assertEqual([job.rule for job in grid.inputs.values()], list(rules.values()))
        self.assertEqual(list(grid.run(call=last).index.get_level_values("rule")), ["nasch", "slow"])

    def test_parameters_that_are_wrong(self) -> None:
        errors: list[tuple[str, dict[str, Any]]] = [
            ("p must be a list of values", {"p": 0.25}),
            ("p must be a list of values", {"p": "1/4"}),
            ("rule must have numbers or texts", {"rule": [Nasch(0)]}),
            ("seed has no values", {"seed": []}),
            ("seed has the same value twice", {"seed": [1, 2, 1.0]}),
            ("speed is a column", {"speed": [1]}),
            ("flow_sem is a column", {"flow_sem": [1]}),
            ("cannot have this name", {"class": [1]}),
        ]
        for message, parameters in errors:
            with self.subTest(words=message), self.assertRaisesRegex(ParameterError, message):
                Grid(job, **parameters)

    def test_a_function_that_does_not_fit(self) -> None:
        for make, fault in (
            (lambda seed: None, "'key'"), (lambda key: None, "'seed'"), (lambda seed, p, key: None, "'p'"),
        ):
            self.assertRaisesRegex(
                ParameterError, f"with seed, key by name, which does not fit: .*{fault}", Grid, make, seed=[1]
            )
        self.assertRaisesRegex(ParameterError, "needs a function", Grid, job(0.25, 0.1, 0, 1), seed=[1])
        Grid(lambda **named: job(0.25, 0.1, **named), seed=[1])

    def test_an_input_is_a_job_or_a_sweep(self) -> None:
        self.assertRaisesRegex(
            ParameterError, "must return a Job or a Sweep, not None", Grid, lambda seed, key: None, seed=[1]
        )

    def test_choices_that_give_the_same_input(self) -> None:
        for make in (
            lambda p, density, seed, key: job(p, density, seed, 0),
            lambda p, density, seed, key: job(p, density, seed, 3 * seed % 2),
            lambda p, density, seed, key: job(0.25, density, seed, seed),
            lambda p, density, seed, key: job(p, 0.1, seed, int(seed + 10 * density)),
        ):
            self.assertRaisesRegex(ParameterError, "the same input|densit", Grid, make, **JOBS)
        Grid(lambda p, density, seed, key: job(p, density, seed, seed), **JOBS)

    def test_a_parameter_that_make_ignores(self) -> None:
        self.assertRaisesRegex(
            ParameterError, "p and seed change only the key", Grid,
            lambda p, density, seed, key: job(0.25, density, seed, key), **JOBS,
        )
        self.assertRaisesRegex(
            ParameterError, "p and seed change only the key", Grid, lambda p, seed, key: sweep(0.25, seed, key),
            **SWEEPS,
        )
        for values in [0.25, 0.5], ["1/4", "1/2"]:
            self.assertRaisesRegex(
                ParameterError, "`p` changes only the key", Grid, lambda p, key: job(0.25, 0.1, 0, key), p=values
            )
        # A parameter that is used for some values of another one is used.
        rules: dict[str, Callable[[float], Rule]] = {"nasch": lambda q: Nasch(0.25), "slow": lambda q: SlowToStart(0.25, q)}
        Grid(lambda rule, q, seed, key: Job(limit=5, length=20, cars=4, rule=rules[rule](q), steps=9, key=key),
             rule=["nasch", "slow"], q=[0.5, 0.75], seed=[0, 1])

    def test_densities_that_are_one_number_of_cars(self) -> None:
        self.assertRaisesRegex(
            ParameterError, "the densities 0.02 and 0.029 are both 1 cars on 50 cells", Grid, job, p=[0.25],
            density=[0.02, 0.029], seed=[0],
        )
        self.assertRaisesRegex(
            ParameterError, "are both 1 cars", Grid, lambda density, key: job(0.25, density, 0, 1),
            density=[0.011, 0.02],
        )
        Grid(lambda length, density, key: Job(limit=5, length=length, density=density, rule=Nasch(0), steps=1, key=key),
             length=[50, 100], density=[0.02, 0.04])

    def test_a_density_that_is_not_that_of_the_road(self) -> None:
        for name, values in ("density", [0.1, 0.2]), ("cars", [5, 6]):
            self.assertRaisesRegex(
                ParameterError, f"the parameter `{name}`", Grid, lambda key, **chosen: job(0.25, 0.5, 0, key),
                **{name: values},
            )
            self.assertRaisesRegex(
                ParameterError, f"the parameter `{name}`", Grid, lambda key, **chosen: sweep(0.25, 0, key),
                **{name: values},
            )
        self.assertRaisesRegex(
            ParameterError, "must have numbers", Grid, lambda density, key: job(0.25, density, 0, key),
            density={"low": 0.1},
        )
        # Rounded down or up is near enough, because frames have the density of the road.
        for cars in math.floor, math.ceil:
            Grid(lambda density, key: Job(limit=5, length=50, cars=cars(50 * density), rule=Nasch(0), steps=1, key=key),
                 density=[0.11, 0.33])

    def test_old_names(self) -> None:
        self.assertRaisesRegex(trlab.RenamedError, "named_inputs", lambda: Grid(sweep, **SWEEPS).texts())
        self.assertFalse(hasattr(Grid(sweep, **SWEEPS), "no_such_name"))

    def test_a_copy(self) -> None:
        grid = pickle.loads(pickle.dumps(Grid(sweep, p=[0.25], seed=[0]).inputs[0.25, 0]))
        self.assertEqual(grid, Grid(sweep, p=[0.25], seed=[0]).inputs[0.25, 0])


@needs("pandas")
class Frames(unittest.TestCase):
    def test_an_error_says_which_choice_failed(self) -> None:
        def call(job: Job) -> int:
            if job.density == 0.2:
                try:
                    return int({"y": 1}["x"])
                except KeyError:
                    return 1 // 0
            return 1

        grid = Grid(job, p=[0.25], density=[0.1, 0.2], seed=[0])
        with self.assertRaises(ZeroDivisionError) as caught:
            grid.run(call=call)
        text = "".join(traceback.format_exception(None, caught.exception, None))
        message = r"failed for the input Choice\(p=0.25, density=0.2, seed=0\)"
        self.assertRegex(text, rf"{message}(.|\n)*KeyError(.|\n)*ZeroDivision")

        def make(density: float, key: int) -> Job:
            return Job(limit=5, length=50, density=density, rule=Nasch(3 * density), steps=5, key=key)

        with self.assertRaisesRegex(ParameterError, "between 0 and 1, not 1.5") as wrong:
            Grid(make, density=[0.1, 0.5])
        self.assertEqual(str(wrong.exception.__cause__), "`make` failed for Choice(density=0.5)")

    def test_a_row_for_each_job(self) -> None:
        frame = Grid(job, **JOBS).run(call=last)
        self.assertEqual(list(frame)[:4], ["flow", "speed", "stopped_share", "change_rate"])
        self.assertEqual(list(frame)[-3:], ["key", "road", "ensemble"])
        self.assertEqual(len(frame), 24)
        self.assertEqual(list(frame.index.names), ["p", "density", "seed", "step"])
        (window,) = last(job(0.25, 0.2, 3, int(key_for(p=0.25, density=0.2, seed=3), 16)))
        row = frame.iloc[7]
        self.assertEqual(row.name, (0.25, 0.2, 3, 30))
        for name in "flow", "speed", "stopped_share", "change_rate", "distance", "cars", "stopped0":
            self.assertEqual(row[name], getattr(window, name))
        self.assertEqual(row.key, key_for(p=0.25, density=0.2, seed=3))

    def test_a_row_for_each_point_of_a_sweep(self) -> None:
        frame = Grid(sweep, **SWEEPS).run()
        self.assertEqual(len(frame), 24)
        self.assertEqual(list(frame.index.names), ["p", "seed", "density"])
        self.assertEqual(list(frame.index.get_level_values("density")[:3]), [0.1, 0.2, 0.4])
        self.assertEqual(list(frame.road[:4]), [0, 1, 2, 0])
        means = trlab.means(frame, "seed")
        self.assertEqual(list(means.index.names), ["p", "density"])
        self.assertEqual(list(means.n), [4] * 6)

    def test_points_of_one_density_are_repetitions(self) -> None:
        frame = Grid(lambda seed, key: Sweep(5, Nasch(0.25), 50, 0, 10, cars=[5, 5, 9, 9], key=key), seed=[0, 1]).run()
        means = trlab.means(frame, ["seed", "road"])
        self.assertEqual(list(means.index), [0.1, 0.18])
        self.assertEqual(list(means.n), [4, 4])

    def test_a_row_for_each_window_of_a_series(self) -> None:
        frame = Grid(job, **JOBS).run(call=lambda job: job.series(every=10))
        self.assertEqual(len(frame), 72)
        self.assertEqual(list(frame.index.names), ["p", "density", "seed", "step"])
        self.assertEqual(list(frame.index.get_level_values("step")[:4]), [10, 20, 30, 10])

    def test_frames_of_detectors(self) -> None:
        frame = Grid(job, p=[0.25], density=[0.2], seed=[0, 1]).run(call=lambda job: job.detectors([0, 25], every=15))
        self.assertEqual(len(frame), 8)
        self.assertEqual(list(frame.index.names), ["p", "density", "seed", "cell", "lane", "step"])
        self.assertEqual(list(trlab.means(frame, "seed", of="flow").n), [2] * 4)
        self.assertRaisesRegex(FrameError, "same key", trlab.means, frame, "cell", of="flow")
        self.assertRaisesRegex(FrameError, "cannot add up", trlab.per_run, frame)

    def test_a_job_needs_a_measurement(self) -> None:
        with tempfile.TemporaryDirectory() as folder:
            self.assertRaisesRegex(ParameterError, "job.series", Grid(job, **JOBS).run, cache=folder)
            self.assertEqual(list(Path(folder).iterdir()), [])

    def test_an_option_that_is_not_known(self) -> None:
        run = Grid(job, **JOBS).run
        self.assertRaisesRegex(ParameterError, "no option 'runners', only call, .*at_once", run, call=len, runners=2)

    def test_a_wrong_call_is_reported_at_the_first_result(self) -> None:
        finished = []
        self.assertRaisesRegex(
            FrameError, "p=0.25, density=0.1, seed=0: a result must be", Grid(job, **JOBS).run, call=lambda job: "text",
            progress=lambda done, of: finished.append(done), at_once=1,
        )
        self.assertEqual(finished, [1])

    def test_errors_that_are_kept(self) -> None:
        grid = Grid(
            lambda p, key: Job(limit=5, length=9, cars=1, rule=Rickert(p, 0) if p else Nasch(0), steps=2, key=key),
            p=[0, 1],
        )
        frame = grid.run(call=lambda job: job.series(), errors="keep")
        self.assertEqual(len(frame), 3)
        self.assertRegex(frame.error.dropna()[1].iloc[0], "RejectedInputError: fault line 5 cause 4\n.*rickert")
        self.assertRaisesRegex(
            trlab.RejectedInputError, "fault line 5 cause 4", grid.run, call=lambda job: job.series()
        )
        self.assertRaisesRegex(FrameError, "a result must be", grid.run, call=lambda job: "text", errors="keep")

    def test_a_table_without_rows(self) -> None:
        grid = Grid(job, p=[0.25], density=[0.2], seed=[0, 1])
        self.assertRaisesRegex(FrameError, "no rows", grid.run, call=lambda job: job.series(every=10)[:0])
        frame = grid.run(
            call=lambda job: job.series(every=10)[:0 if job == grid.inputs[0.25, 0.2, 1] else 9], errors="keep"
        )
        self.assertEqual(len(frame), 4)
        self.assertEqual(frame.error.notna().sum(), 1)

    def test_a_result_of_another_input(self) -> None:
        other = job(0.25, 0.3, 0, 0)
        self.assertRaisesRegex(FrameError, "results of this input", Grid(job, **JOBS).run, call=lambda job: last(other))

    def test_a_frame_records_its_parameters(self) -> None:
        frame = Grid(job, **JOBS).run(call=last)
        self.assertEqual(frame.attrs["trlab"]["parameters"], ["p", "density", "seed"])

    @needs("xarray")
    def test_xarray(self) -> None:
        data = Grid(sweep, **SWEEPS).run().to_xarray()
        self.assertEqual(dict(data.sizes), {"p": 2, "seed": 4, "density": 3})
        (point,) = [point for point in sweep(0.5, 2, int(key_for(p=0.5, seed=2), 16)).sweep() if point.cars == 10]
        self.assertEqual(float(data.flow.sel(p=0.5, seed=2, density=0.2)), point.flow)


@needs("pandas")
class Clusters(unittest.TestCase):
    def same(self, frame: Any, expected: Any) -> None:
        import pandas

        pandas.testing.assert_frame_equal(frame, expected, check_exact=True)

    def test_by_files(self) -> None:
        grid = Grid(sweep, **SWEEPS)
        self.assertEqual(list(grid.named_inputs())[5], "p_0.5_seed_1")
        with tempfile.TemporaryDirectory() as folder:
            script = write_inputs(folder, grid.named_inputs(), per_task=3)
            self.assertEqual(os.system(f"sh {script}"), 0)
            tables = read_tables(folder, Point)
        self.same(grid.frame(tables), grid.run())
        table = tables.pop("p_0.5_seed_1")
        frame = grid.frame({**tables, "p_0.25_seed_0": OSError("cut off")})
        self.assertEqual(list(frame.error.dropna()), ["OSError: cut off", "no result yet"])
        self.same(
            trlab.means(frame[frame.error.isna()], "seed"), trlab.means(grid.run().drop([(0.25, 0), (0.5, 1)]), "seed")
        )
        self.assertRaisesRegex(FrameError, "there is no result at .* and 1 more", trlab.means, frame, "seed")
        self.assertRaisesRegex(ParameterError, "'p_9' is not an input", grid.frame, {"p_9": table})

    def test_a_grid_that_was_stopped_continues(self) -> None:
        with tempfile.TemporaryDirectory() as folder:
            for _ in Grid(job, **JOBS).results(call=last, cache=folder):
                break
            self.same(Grid(job, **JOBS).run(call=last, cache=folder), Grid(job, **JOBS).run(call=last))
            self.assertEqual(len(list(Path(folder).iterdir())), 24)

    def test_names_that_are_equal_in_files(self) -> None:
        grid = Grid(lambda p, key: sweep(p, 0, key), p={"1/4": 0.25, "1_4": 0.5})
        self.assertRaisesRegex(ParameterError, "same file name", grid.named_inputs)


if __name__ == "__main__":
    unittest.main()
