"""Estimates and their errors: how often the true value is within two standard errors, and which arguments are
rejected."""
import contextlib
import math
import unittest
from collections.abc import Callable, Mapping, Sequence
from typing import Any

import trlab
from tests.libraries import numpy, pandas
from trlab import EstimateError, FrameError, Grid, Job, SlowToStart, moving
from trlab._analysis.columns import Array
from trlab._analysis.peak import Peak


def runs_of(rows: Sequence[Mapping[str, object]], levels: list[str]) -> pandas.DataFrame:
    """A frame of runs, each with its own key. Runs that differ in their seed only belong to one ensemble."""
    frame = pandas.DataFrame(rows)
    if "key" not in frame:
        frame["key"] = [f"{number:064x}" for number in range(len(frame))]
    others = frame[[name for name in levels if name != "seed"]].astype(str)
    return frame.assign(road=0, ensemble=others.agg("/".join, axis=1) if len(others.columns) else "e").set_index(levels)


TOP, HEIGHT = 0.086, 0.318
"""The density and the flow of the peak of the parabola, about those of Nagel and Schreckenberg (1992)."""


class Peaks(unittest.TestCase):
    AT: Array = numpy.linspace(0.05, 0.13, 9)

    def setUp(self) -> None:
        self.numbers = numpy.random.default_rng(1)

    def curve(
        self, flow: Callable[[float], float], densities: Array = AT, runs: int = 10, noise: float = 0.002,
        shared: float = 0.0,
    ) -> pandas.DataFrame:
        """Runs whose flow is a function of the density, with the standard deviation `noise`. If `shared` is not 0, runs
        with the same seed have the same key, and errors with this standard deviation in common."""
        common = self.numbers.normal(size=runs) * shared
        rows = [
            {"density": x, "seed": seed, "flow": flow(x) + noise * self.numbers.normal() + common[seed],
             "key": f"{seed if shared else 1000 * seed + number:064x}"}
            for number, x in enumerate(densities) for seed in range(runs)
        ]
        return runs_of(rows, ["density", "seed"])

    @staticmethod
    def parabola(x: float) -> float:
        """The flow at the density x. At the ends of `AT` it is 8 and 12 percent below the peak."""
        return HEIGHT - 20 * (x - TOP) ** 2

    def test_the_errors_cover_a_parabola_also_with_shared_keys(self) -> None:
        for shared, runs in (0.0, 10), (0.002, 30):
            z: list[tuple[float, float]] = []
            for _ in range(80):
                try:
                    peak = trlab.peak(self.curve(self.parabola, runs=runs, shared=shared), over="seed")
                except EstimateError:
                    continue
                z.append(((peak.y - HEIGHT) / peak.y_sem, (peak.x - TOP) / peak.x_sem))
            self.assertGreater(len(z), 65)
            # Normal errors have the mean 0 and the standard deviation 1, and 95 percent of them are below 2. These errors
            # include the choice of the fit, so they may be larger.
            for deviations in numpy.array(z).T:
                self.assertGreater((abs(deviations) < 2).mean(), 0.87)
                self.assertLess(abs(deviations.mean()), 0.4)
                self.assertTrue(0.4 < deviations.std() < 1.3)

    def test_the_errors_cover_curves_of_any_shape(self) -> None:
        # The density of the top is TOP, at a random place between two densities.
        def ratio(x: float) -> float:
            return HEIGHT * math.pow(x / TOP * math.exp(1 - x / TOP), 1.5)

        def exponential(x: float) -> float:
            return max(0.05, HEIGHT - 0.008 * (math.exp((TOP - x) / 0.01) + (x - TOP) / 0.01 - 1))

        def skewed(x: float) -> float:
            return HEIGHT - (45 if x < TOP else 15) * (x - TOP) ** 2

        def corner(x: float) -> float:
            return HEIGHT - (4.5 * (TOP - x) if x < TOP else 0.8 * (x - TOP))

        def bent_corner(x: float) -> float:
            return HEIGHT - (4.5 * (TOP - x) if x < TOP else 0.3 * (x - TOP) + 2 * (x - TOP) ** 2)

        shares = {}
        for flow in self.parabola, ratio, exponential, skewed, corner, bent_corner:
            z: list[tuple[float, float]] = []
            for step, count in (0.004, 17), (0.008, 11), (0.012, 9):
                for _ in range(20):
                    densities = TOP + step * (numpy.arange(count) - count // 2 + self.numbers.uniform(-0.5, 0.5))
                    for peak in self.peaks(1, flow, densities, runs=8):
                        z.append((abs(peak.y - HEIGHT) / peak.y_sem, abs(peak.x - TOP) / peak.x_sem))
            shares[flow.__name__] = [(numpy.array(z) < sems).mean(axis=0) for sems in (1, 2)]
            self.assertGreater(len(z), 50, flow.__name__)
        # Of 60 curves of a shape, the shares scatter by 0.06 and 0.04.
        for name, (within_one, within_two) in shares.items():
            with self.subTest(name, within_one=within_one, within_two=within_two):
                self.assertTrue((within_one >= 0.55).all() and (within_two >= 0.87).all())
        within_one, within_two = numpy.mean(list(shares.values()), axis=0)
        self.assertTrue((within_one >= 0.65).all() and (within_two >= 0.93).all())

    def test_a_corner_is_known_to_half_a_step(self) -> None:
        peaks = self.peaks(5, lambda x: min(5 * x, 1 - x), numpy.linspace(0.13, 0.21, 12), 8, 0.0005)
        for peak in peaks:
            self.assertGreater(peak.corner, 0.9)
            self.assertLess(abs(peak.x - 1 / 6), peak.x_sem)
            self.assertLess(abs(peak.y - 5 / 6), 1.5 * peak.y_sem)
            self.assertTrue(0.5 <= peak.x_sem / (0.08 / 11) < 1)

    def test_the_peak_is_nearer_to_the_maximum_than_the_highest_mean(self) -> None:
        frames = [self.curve(self.parabola, runs=5, noise=0.004) for _ in range(40)]
        highest = numpy.mean([trlab.means(frame, "seed").flow.max() for frame in frames])
        fitted = []
        for frame in frames:
            try:
                fitted.append(trlab.peak(frame, "seed").y)
            except EstimateError:
                continue
        self.assertGreater(highest - HEIGHT, 1.2 * abs(numpy.mean(fitted) - HEIGHT))

    def peaks(
        self, count: int, flow: Callable[[float], float], densities: Array = AT, runs: int = 10, noise: float = 0.002,
        within: float = 0.1,
    ) -> list[Peak]:
        """The peaks of a number of curves, without those that are rejected."""
        peaks = []
        for _ in range(count):
            with contextlib.suppress(EstimateError):
                peaks.append(trlab.peak(self.curve(flow, densities, runs, noise), over="seed", within=within))
        return peaks

    def test_chi2_is_about_the_degrees_of_freedom(self) -> None:
        peaks = self.peaks(60, self.parabola, runs=5)
        self.assertGreater(len(peaks), 48)
        # Less than 1, because the fit is the best of many.
        self.assertTrue(0.2 < numpy.mean([peak.chi2 / peak.dof for peak in peaks]) < 1.2)

    def test_a_flat_curve_has_no_peak(self) -> None:
        peaks = self.peaks(40, lambda x: HEIGHT - (x - 0.09) ** 2, runs=5, noise=0.01)
        self.assertLess(len(peaks), 2)

    def test_a_peak_next_to_a_plateau(self) -> None:
        def flow(x: float) -> float:
            """The parabola below its top, and above it a fall by 0.006 to a plateau."""
            return HEIGHT - (20 * (x - TOP) ** 2 if x < TOP else 0.006 * (1 - math.exp(-((x - TOP) / 0.015) ** 2)))

        peaks = self.peaks(20, flow)
        self.assertGreater(len(peaks), 15)
        self.assertLess(abs(numpy.mean([peak.y for peak in peaks]) - HEIGHT), 0.001)

    def test_a_plateau_has_no_peak(self) -> None:
        def rising(x: float) -> float:
            """The parabola below its top, and above it its height."""
            return HEIGHT - (20 * (x - TOP) ** 2 if x < TOP else 0.0)

        def falling(x: float) -> float:
            """The curve `rising`, mirrored at the middle of the densities `AT`, which is 0.09."""
            return rising(0.18 - x)

        for flow in rising, falling:
            self.assertLess(len(self.peaks(60, flow)), 3)
        # Here noise ends the part that is fitted, and not a fall of the curve.
        self.assertLess(len(self.peaks(40, lambda x: 0.3, numpy.linspace(0.05, 0.13, 60), within=0.006)), 3)

    def test_the_fields_of_a_peak(self) -> None:
        frame = self.curve(self.parabola, runs=7, noise=1e-4)
        peak = trlab.peak(frame, over="seed")
        self.assertEqual(peak.n, 7)
        self.assertEqual(peak.points, 8)
        self.assertTrue(2 <= peak.dof <= 5)
        self.assertTrue(0 <= peak.corner < 0.5)
        with_constants = frame.assign(limit=5, step=30).set_index(["limit", "step"], append=True)
        self.assertEqual(trlab.peak(with_constants, over="seed"), peak)
        scaled = trlab.peak(frame.assign(scaled=frame.flow * 3600), over="seed", y="scaled")
        numpy.testing.assert_allclose(
            [scaled.x, scaled.x_sem, scaled.y, scaled.y_sem], [peak.x, peak.x_sem, 3600 * peak.y, 3600 * peak.y_sem],
            rtol=1e-6,
        )

    def test_a_bad_fit_has_larger_errors(self) -> None:
        from trlab._analysis.peak import _mean_of_fits
        from trlab._analysis.peak_fits import Fit, Top

        def variances(chi2: float) -> tuple[float, float]:
            """The variances of the mean of one fit, with 4 degrees of freedom."""
            top, _, _ = _mean_of_fits([Fit(chi2, 3, 7, 0, Top(0.1, 0.01, 1.0, 0.04), False)])
            return top.x_variance, top.y_variance

        numpy.testing.assert_allclose(variances(8.0), [0.02, 0.08])
        numpy.testing.assert_allclose(variances(2.0), [0.01, 0.04])

    def test_the_mean_of_fits(self) -> None:
        from trlab._analysis.peak import _mean_of_fits
        from trlab._analysis.peak_fits import Fit, Top

        low = Top(x=0.0, x_variance=0.01, y=1.0, y_variance=0.0)
        high = Top(x=0.1, x_variance=0.01, y=2.0, y_variance=0.0)
        # The second fit has a parameter more, and the third leaves a point out: both cost exp(-1).
        fits = [Fit(2.0, 3, 8, 0, low, False), Fit(2.0, 4, 8, 0, high, True), Fit(2.0, 3, 7, 1, high, False)]
        top, best, corner = _mean_of_fits(fits)
        weight = math.exp(-1) / (1 + 2 * math.exp(-1))
        self.assertEqual(best, fits[0])
        self.assertAlmostEqual(corner, weight)
        self.assertAlmostEqual(top.y, 1 + 2 * weight)
        self.assertAlmostEqual(top.y_variance, 2 * weight * (1 - 2 * weight))
        self.assertAlmostEqual(top.x_variance, 0.01 + 0.01 * 2 * weight * (1 - 2 * weight))
        without_top = [fits[0]._replace(top=None), *fits[1:]]
        self.assertRaisesRegex(EstimateError, "does not show where", _mean_of_fits, without_top)
        self.assertRaisesRegex(EstimateError, "no curve fits", _mean_of_fits, [fits[0]._replace(chi2=40.0)])

    def test_curves_without_a_peak(self) -> None:
        def zigzag(density: float) -> float:
            """A flow that is higher near a density, where it goes up and down."""
            is_near = abs(density - 0.17) < 0.02
            return 0.51 - (density * 1e3 % 2) * 0.001 if is_near else 0.5

        densities = numpy.linspace(0.13, 0.21, 12)
        for message, frame in (
            ("points are needed", self.curve(lambda x: x, densities, 8, 0.0005)),
            ("points are needed", self.curve(lambda x: 1 - x, densities, 8, 0.0005)),
            ("points are needed", self.curve(self.parabola, self.AT[:4])),
            ("no curve fits", self.curve(zigzag, densities, 8, 0.00002)),
            ("does not fall significantly|points are needed", self.curve(lambda x: 0.3, noise=0.001)),
            ("at least 5 runs", self.curve(self.parabola, runs=4)),
            ("all equal", self.curve(self.parabola, noise=0.0)),
        ):
            self.assertRaisesRegex(EstimateError, message, trlab.peak, frame, over="seed")

    def test_frames_that_are_not_a_curve(self) -> None:
        frame = self.curve(self.parabola)
        two_curves = pandas.concat({0.1: frame, 0.2: frame.assign(ensemble="x")}, names=["p"])
        self.assertRaisesRegex(
            EstimateError, r"several curves: select one value of \['p'\]", trlab.peak, two_curves, over="seed"
        )
        self.assertRaisesRegex(EstimateError, "needs the levels", trlab.peak, frame, over="sed")
        self.assertRaisesRegex(EstimateError, "needs the levels", trlab.peak, frame, over="seed", y="speed")
        self.assertRaisesRegex(EstimateError, "share between 0 and 1", trlab.peak, frame, over="seed", within=5)
        self.assertRaisesRegex(
            (EstimateError, FrameError), "needs the levels", trlab.peak, trlab.means(frame, "seed"), over="seed"
        )
        shared = frame.assign(key=[f"{number // 2:064x}" for number in range(len(frame))])
        self.assertRaisesRegex((EstimateError, FrameError), "have the same key", trlab.peak, shared, over="seed")
        partly = self.curve(self.parabola, shared=0.001, runs=20)
        keys = partly.key.to_list()
        keys[len(keys) // 2] = "f" * 64
        self.assertRaisesRegex(EstimateError, "share keys", trlab.peak, partly.assign(key=keys), over="seed")


class Lifetimes(unittest.TestCase):
    def test_a_law_that_is_not_exponential(self) -> None:
        numbers = numpy.random.default_rng(1)
        exponential = numbers.exponential(100, size=(400, 30))
        for end in math.inf, 70:
            rejected = 0
            for times in exponential:
                try:
                    trlab.lifetime(numpy.minimum(times, end), times <= end)
                except EstimateError:
                    rejected += 1
            # Of the 400 samples 1.2 are expected, because 3 of 1000 are rejected by chance.
            self.assertLess(rejected, 6)
            for message, samples, later_end in (
                ("too many are short", exponential**2, 200 * end),
                ("too few are short", 200 + exponential, 5 * end),
            ):
                for sample in samples[:5]:
                    times = numpy.tile(sample, 4)
                    lives = numpy.minimum(times, later_end)
                    with self.assertRaisesRegex(EstimateError, f"not exponential.*{message}"):
                        trlab.lifetime(lives, times <= later_end)

    def test_lives_of_nearly_equal_length(self) -> None:
        self.assertEqual(trlab.lifetime([100, 101, 102, 103], 4 * [True]).mean, 101.5)
        self.assertRaisesRegex(EstimateError, "too few are short", trlab.lifetime, range(100, 110), 10 * [True])
        # All of these ended in the first window, whose length is not known.
        self.assertEqual(trlab.lifetime(10 * [7], 10 * [True]).mean, 7)

    def test_the_formula(self) -> None:
        estimate = trlab.lifetime([3, 5, 2, 10], [True, True, False, False])
        self.assertEqual(estimate, trlab.Lifetime(mean=10.0, sem=10 / math.sqrt(2), observed=2, censored=2))

    def test_half_may_be_cut_off(self) -> None:
        numbers = numpy.random.default_rng(1)
        z: list[float] = []
        for _ in range(200):
            # The share exp(-0.7) of the lives, which is about a half, is longer than 700 steps.
            times = numbers.exponential(1000, size=60)
            estimate = trlab.lifetime(numpy.minimum(times, 700), times <= 700)
            z.append((estimate.mean - 1000) / estimate.sem)
        self.assertLess(abs(numpy.mean(z)), 0.3)
        self.assertGreater((abs(numpy.array(z)) < 2).mean(), 0.9)

    def test_survival_of_a_worked_example(self) -> None:
        # At 2 one of 5 lives ends, at 3 one of 4 ends and one is cut off, at 5 one of 2 ends.
        curve = trlab.survival([2, 3, 3, 5, 8], [True, True, False, True, False])
        self.assertEqual(list(curve.index), [0, 2, 3, 5, 8])
        self.assertEqual(list(curve.at_risk), [5, 5, 4, 2, 1])
        numpy.testing.assert_allclose(curve.survival, [1, 4 / 5, 3 / 5, 3 / 10, 3 / 10])
        greenwood = numpy.cumsum([0, 1 / (5 * 4), 1 / (4 * 3), 1 / (2 * 1), 0])
        numpy.testing.assert_allclose(curve.survival_sem, curve.survival * numpy.sqrt(greenwood))

    def test_survival_without_cuts_is_the_share_of_longer_lives(self) -> None:
        times = numpy.random.default_rng(2).integers(1, 30, size=50)
        curve = trlab.survival(times, [True] * 50)
        for time, row in curve.iterrows():
            share = numpy.mean(times > time)
            self.assertAlmostEqual(row.survival, share)
            if share:
                self.assertAlmostEqual(row.survival_sem, math.sqrt(share * (1 - share) / 50))
        self.assertTrue(math.isnan(curve.survival_sem.iloc[-1]))

    def test_survival_of_an_exponential_law(self) -> None:
        times = numpy.random.default_rng(3).exponential(100, size=2000)
        curve = trlab.survival(numpy.minimum(times, 150), times < 150)
        inside = abs(curve.survival - numpy.exp(-curve.index / 100)) < 3 * curve.survival_sem + 0.01
        self.assertTrue(inside[curve.index < 140].all())

    def test_lives_without_information(self) -> None:
        for call in trlab.lifetime, trlab.survival:
            for message, times, observed in (
                ("above 0", [0, 5], [True, True]),
                ("above 0", [-1, 5], [True, True]),
                ("not finite", [math.nan, 5], [True, True]),
                ("not finite", [math.inf, 5], [True, True]),
                ("`times` must be one list of numbers", ["3", 5], [True, True]),
                ("True or False", [1, 2], [1, 3]),
                ("`observed` has 1 values that are missing", [1, 2], [True, None]),
                ("`observed` must be one list of numbers", [1, 2], ["yes", "no"]),
                ("equally many", [1, 2], [True]),
                ("equally many", [], []),
                ("one list", numpy.ones((2, 2)), [True, True]),
                ("must be a list", 5, True),
            ):
                with self.subTest(message, times=times), self.assertRaisesRegex(EstimateError, message):
                    call(times, observed)
        self.assertRaisesRegex(EstimateError, "no life ended in 7 steps", trlab.lifetime, [3, 4], [False, False])
        self.assertEqual(list(trlab.survival([3, 4], [False, False]).survival), [1, 1, 1])

    def test_lives_of_several_inputs(self) -> None:
        index = pandas.MultiIndex.from_product([[0.1, 0.2], [0, 1]], names=["density", "seed"])
        lives = pandas.DataFrame({"time": [3, 5, 4, 4], "observed": [True, False, True, True]}, index=index)
        for call in trlab.lifetime, trlab.survival:
            self.assertRaisesRegex(
                EstimateError, r"several values of \['density', 'seed'\]", call, lives.time, lives.observed
            )
            self.assertRaisesRegex(
                EstimateError, "of the same run", call, lives.droplevel("density").time,
                lives.droplevel("density").observed,
            )
            self.assertRaisesRegex(EstimateError, "same runs", call, lives.time, lives.observed[::-1])
            self.assertRaisesRegex(EstimateError, "one column", call, lives, lives.observed)
        # The sum of the times, divided by the number of observed ends.
        means = {density: trlab.lifetime(runs.time, runs.observed).mean for density, runs in lives.groupby("density")}
        self.assertEqual(means, {0.1: 8, 0.2: 4})

    def test_the_lifetime_of_free_flow(self) -> None:
        rule = SlowToStart("1/64", "3/4")
        ring: dict[str, Any] = dict(limit=5, length=500, density=0.18, rule=rule, start=moving, steps=500)
        grid = Grid(lambda seed, key: Job(**ring, key=key), seed=range(12))
        lives = grid.run(call=lambda job: job.time_until(lambda window: window.stopped > 0, every=10))
        estimate = trlab.lifetime(lives.time, lives.observed)
        self.assertEqual(estimate.observed, lives.observed.sum())
        self.assertEqual(estimate.mean, lives.time.sum() / lives.observed.sum())
        self.assertEqual(estimate.observed + estimate.censored, 12)

    def test_a_mean_of_censored_times_is_rejected(self) -> None:
        lives = runs_of([{"seed": 0, "time": 3, "observed": True}, {"seed": 1, "time": 5, "observed": False}], ["seed"])
        self.assertRaisesRegex(FrameError, "trlab.lifetime", trlab.means, lives, "seed")
        self.assertEqual(trlab.means(lives.assign(observed=True), "seed").time[0], 4)


if __name__ == "__main__":
    unittest.main()
