"""`trlab.exact`: its numbers are those of every small ring counted step by step, and those of long runs of the
program."""
import importlib.util
import unittest
from collections.abc import Iterator, Sequence
from dataclasses import replace
from fractions import Fraction
from itertools import combinations, product
from math import sqrt
from statistics import fmean, stdev

from tests.expected import ALWAYS, TENTH, THIRD
from tests.random_jobs import Decorator, needs_hypothesis
from trlab import Job, Nasch, Own, ParameterError, Probability, Rickert, Rule, SlowToStart, Sweep
from trlab import even, exact, jammed, random_cells

if importlib.util.find_spec("hypothesis"):
    from hypothesis import given, settings, strategies as some

    EXAMPLES: Decorator = settings(max_examples=80, deadline=None, database=None, derandomize=True)
    LANES: Decorator = given(some.text(alphabet="0..", min_size=1, max_size=40), some.integers(1, 6), some.integers(0, 90))
    RINGS: Decorator = given(some.integers(1, 400), some.fractions(0, 1), some.fractions(0, 1, max_denominator=1000))
else:
    EXAMPLES = LANES = RINGS = needs_hypothesis

PROBABILITIES = Fraction(0), Fraction(1, 2**31), Fraction(1, 4), Fraction(1, 3), Fraction(7, 8), Fraction(1)

SLOW = Own("get r0, gap\ndiv r0, r0, 2\nget r1, limit\nmin r0, r0, r1\ngo r0\n")
"""Cars that drive at most half of their gap."""

Cells = frozenset[int]
"""A ring with one lane, as the set of its occupied cells."""


def rings(length: int, cars: int) -> list[Cells]:
    """All rings with these numbers of cells and cars."""
    return [frozenset(cells) for cells in combinations(range(length), cars)]


def text(ring: Cells, length: int) -> str:
    """The lane of a ring in the characters of a file, with stopped cars."""
    return "".join("0" if cell in ring else "." for cell in range(length))


def next_rings(ring: Cells, length: int, brake: Fraction) -> Iterator[tuple[Fraction, int, Cells]]:
    """For each set of cars with an empty cell ahead that move, with v_max = 1: its probability, its number of cars, and
    the ring after the step."""
    free_cars = [cell for cell in ring if (cell + 1) % length not in ring]
    for moves in product((False, True), repeat=len(free_cars)):
        moving_cars = {cell for cell, is_moving in zip(free_cars, moves) if is_moving}
        probability = (1 - brake) ** len(moving_cars) * brake ** (len(free_cars) - len(moving_cars))
        yield probability, len(moving_cars), ring - moving_cars | {(cell + 1) % length for cell in moving_cars}


def driven_distances(lane: str, limit: int, steps: int, delay: int = 0) -> list[int]:
    """The distance of each car of a lane: min(limit, gap) cells in each step, but at most one more than before in the
    first `delay` steps, in which all cars are stopped at first."""
    length, cells = len(lane), [cell for cell, character in enumerate(lane) if character != "."]
    distances, speeds = [0] * len(cells), [0] * len(cells)
    for step in range(steps):
        places = [cell + distance for cell, distance in zip(cells, distances)]
        gaps = [(ahead - place - 1) % length for place, ahead in zip(places, places[1:] + places[:1])]
        limits = [speed + 1 if step < delay else limit for speed in speeds]
        speeds = [min(limit, gap, maximum) for gap, maximum in zip(gaps, limits)]
        distances = [distance + speed for distance, speed in zip(distances, speeds)]
    return distances


class StationaryState(unittest.TestCase):
    def test_every_ring_of_up_to_6_cells(self) -> None:
        for brake, length in product(PROBABILITIES, range(1, 7)):
            q = exact.braking_probability(brake)
            for cars in range(length + 1):
                with self.subTest(brake=brake, length=length, cars=cars):
                    self.compare_all(rings(length, cars), length, cars, q)

    def compare_all(self, all_rings: Sequence[Cells], length: int, cars: int, q: Fraction) -> None:
        """The weights of these rings are stationary, and their sums over the rings are those of the closed forms."""
        weight = {ring: exact.stationary_weight(text(ring, length), q) for ring in all_rings}
        after, moved, total = dict.fromkeys(all_rings, Fraction(0)), Fraction(0), sum(weight.values())
        for ring in all_rings:
            for probability, moving_cars, following in next_rings(ring, length, q):
                after[following] += weight[ring] * probability
                moved += weight[ring] * probability * moving_cars
        self.assertEqual(after, weight)
        self.assertEqual(total == 0, q == 0 and 2 * cars > length)
        if total == 0:
            self.assertRaisesRegex(ParameterError, "has the weight 0", exact.clusters, length, cars, q)
            self.assertRaisesRegex(
                ParameterError, "has the weight 0", exact.stationary_probability, text(all_rings[0], length), q
            )
            self.assertEqual(exact.flow(length, cars, q), exact.triangle(1, Fraction(cars, length)))
            return
        self.assertEqual(exact.flow(length, cars, q), moved / total / length)
        probabilities = {ring: exact.stationary_probability(text(ring, length), q) for ring in all_rings}
        self.assertEqual(probabilities, {ring: value / total for ring, value in weight.items()})
        by_clusters: dict[int, Fraction] = {}
        for ring in all_rings:
            clusters = sum((cell + 1) % length not in ring for cell in ring)
            by_clusters[clusters] = by_clusters.get(clusters, 0) + probabilities[ring]
        self.assertEqual(exact.clusters(length, cars, q), {k: by_clusters[k] for k in sorted(by_clusters)})

    def test_known_flows(self) -> None:
        self.assertEqual(exact.flow(6, 3, "1/4"), Fraction(99, 344))
        self.assertEqual(
            [exact.flow(10, cars, "1/4") for cars in (2, 5, 8)],
            [Fraction(29, 200), Fraction(1921, 7096), Fraction(29, 200)],
        )
        self.assertEqual([exact.flow(8, cars, 0.25) for cars in (3, 4)], [Fraction(387, 1568), Fraction(735, 2656)])

    def test_the_probability_is_the_one_that_files_have(self) -> None:
        third = Fraction(THIRD, ALWAYS)
        brakes: list[Probability] = ["1/3", 1 / 3, Fraction(1, 3), third]
        for brake in brakes:
            self.assertEqual(Nasch(brake).lines(), [f"rule nasch {THIRD}"])
            self.assertEqual(exact.braking_probability(brake), third)
            self.assertEqual(exact.flow(2, 1, brake), (1 - third) / 2)
            self.assertEqual(exact.stationary_weight("00.", brake), third)
        self.assertNotEqual(exact.flow(2, 1, "1/3"), Fraction(1, 3))
        self.assertEqual(exact.flow(2, 1, "0.1"), (1 - Fraction(TENTH, ALWAYS)) / 2)
        others: list[Probability] = [0, 1, "0.5", "1/4"]
        self.assertEqual(
            [exact.braking_probability(brake) for brake in others], [0, 1, Fraction(1, 2), Fraction(1, 4)]
        )

    @EXAMPLES
    @RINGS
    def test_the_float_is_that_of_the_fraction(self, length: int, density: Fraction, brake: Fraction) -> None:
        cars, brake = round(density * length), Fraction(round(brake * 2**31), 2**31)
        fraction, number = exact.flow(length, cars, brake), exact.flow_as_float(length, cars, brake)
        self.assertLessEqual(abs(Fraction(number) - fraction), fraction / 10**12)
        self.assertEqual(fraction, exact.flow(length, length - cars, brake))  # cars and empty cells exchanged

    def test_the_float_of_long_rings(self) -> None:
        long_rings: list[tuple[int, int, Probability]] = [
            (5000, 1500, 0.25), (4000, 3999, "1/2"), (3000, 1500, Fraction(1, 2**31)), (2000, 900, 1 - 2**-31),
        ]
        for length, cars, brake in long_rings:
            fraction = exact.flow(length, cars, brake)
            self.assertLess(abs(Fraction(exact.flow_as_float(length, cars, brake)) / fraction - 1), 1e-12)
        # The flow of an infinite ring (Schreckenberg, Schadschneider, Nagel and Ito 1995).
        for density, p in product((0.1, 0.5, 0.8), (0.25, 0.5)):
            infinite = (1 - sqrt(1 - 4 * (1 - p) * density * (1 - density))) / 2
            self.assertAlmostEqual(exact.flow_as_float(100000, round(100000 * density), p), infinite, places=5)

    def test_long_runs(self) -> None:
        brakes: list[Probability] = [0.25, "2/3"]
        for brake in brakes:
            cars = list(range(1, 12))
            sweep = Sweep(limit=1, length=12, rule=Nasch(brake), warm=200, measure=5000, cars=cars * 30, key=1)
            flows: dict[int, list[float]] = {count: [] for count in cars}
            for point in sweep.sweep():
                flows[point.cars].append(point.flow)

            def z(count: int, braking: Probability) -> float:
                """How many standard errors the mean of the runs differs from the exact flow for this probability."""
                sem = stdev(flows[count]) / sqrt(30)
                return (fmean(flows[count]) - exact.flow(12, count, braking)) / sem

            differences = [z(count, brake) for count in cars]
            self.assertLess(max(abs(difference) for difference in differences), 4)
            self.assertLess(sum(difference**2 for difference in differences), 35)  # 11 degrees of freedom
            # The runs are many enough to rule out another probability.
            self.assertGreater(max(abs(z(count, 0.3)) for count in cars), 9)

    def test_wrong_arguments(self) -> None:
        for call in exact.flow, exact.flow_as_float, exact.clusters:
            for length, cars, brake in (
                (0, 0, 0.5), (100001, 5, 0.5), (10, 11, 0.5), (10, -1, 0.5), (10, 5.0, 0.5), (True, 1, 0.5),
            ):
                self.assertRaisesRegex(ParameterError, "(length|cars) must be", call, length, cars, brake)
            for wrong_brake in 1.5, -0.1, "x", None, 1e-12, True:
                self.assertRaisesRegex(ParameterError, "brake", call, 10, 5, wrong_brake)
        for lane in "0,.", ["0.", "0."], [0, 1], "", 3:
            self.assertRaisesRegex(
                ParameterError, "has the character ','|of one lane|only 0 and 1|a road is a list of speeds",
                exact.stationary_weight, lane, 0.5,
            )
        self.assertEqual(exact.stationary_weight([5, None, 0, 1], 0.5), exact.stationary_weight("0.00", 0.5))


class Triangle(unittest.TestCase):
    def test_flows_of_known_densities(self) -> None:
        self.assertEqual(exact.triangle(5, "3/20"), Fraction(3, 4))
        self.assertEqual(exact.triangle(5, Fraction(1, 6)), Fraction(5, 6))
        self.assertEqual(exact.triangle(1, 0.75), Fraction(1, 4))
        self.assertEqual([exact.triangle(3, density) for density in (0, 1)], [0, 0])
        for limit, density in (0, 0.5), (36, 0.5), (5, 1.5), (5, "x"), (5.0, 0.5):
            self.assertRaisesRegex(ParameterError, "(limit|density) must be", exact.triangle, limit, density)

    def test_every_small_road_has_relaxed(self) -> None:
        for length, limit in product(range(1, 10), (1, 2, 3)):
            for cars in range(length + 1):
                step = exact.relaxed_from(limit, length, cars, exact.gap_rule)
                maximum = min(limit * cars, length - cars)
                for ring in rings(length, cars):
                    lane = text(ring, length)
                    before, after = driven_distances(lane, limit, step), driven_distances(lane, limit, step + 1)
                    self.assertEqual(sum(after) - sum(before), maximum, (lane, limit))
                # A queue has not relaxed before.
                queue = cars * "0" + (length - cars) * "."
                if step and cars > 1:
                    self.assertLess(
                        sum(driven_distances(queue, limit, step)) - sum(driven_distances(queue, limit, step - 1)),
                        maximum,
                    )

    def test_runs_are_on_the_triangle(self) -> None:
        rules: list[Rule] = [Nasch(0), exact.gap_rule]
        for limit, rule in product((1, 2, 5), rules):
            for cars in 1, 30, 60, 100, 119, 120:
                warm = exact.relaxed_from(limit, 120, cars, rule)
                for start in random_cells(3), random_cells(4, None), jammed:
                    job = Job(limit=limit, length=120, cars=cars, start=start, rule=rule, steps=warm + 50)
                    (window,) = job.series(every=50, first=warm)
                    self.assertEqual(Fraction(window.distance, 120 * 50), exact.triangle(limit, Fraction(cars, 120)))

    def test_the_step_of_relaxation(self) -> None:
        self.assertEqual(exact.relaxed_from(2, 11, 4), 5)
        self.assertEqual(exact.relaxed_from(3, 8, 2), 4)
        self.assertEqual(exact.relaxed_from(5, 1000, 0), 5)
        self.assertEqual([exact.relaxed_from(1, 9, cars) for cars in (0, 1, 4, 9)], [0, 0, 3, 0])
        self.assertEqual(exact.relaxed_from(1, 9, 4), exact.relaxed_from(1, 9, 4, exact.gap_rule))
        self.assertEqual(exact.relaxed_from(5, 1000, 150, SlowToStart(0, 0)), exact.relaxed_from(5, 1000, 150))
        for arguments in (0, 9, 4), (1, 0, 0), (1, 9, 10), (1, 9, 4, Nasch(0.5)), (1, 9, 4, "nasch"):
            self.assertRaisesRegex(
                ParameterError, "(limit|length|cars) must be|without randomization|a rule is Nasch", exact.relaxed_from,
                *arguments,
            )


class MinimumPrinciple(unittest.TestCase):
    def test_every_road_of_up_to_6_cells(self) -> None:
        for length, limit in product(range(1, 7), (1, 2, 3, 7)):
            for lane in map("".join, product(".0", repeat=length)):
                for steps in range(2 * length + 4):
                    self.assertEqual(
                        exact.minimum_principle(lane, limit, steps), driven_distances(lane, limit, steps),
                        (lane, limit, steps),
                    )

    @EXAMPLES
    @LANES
    def test_random_lanes(self, lane: str, limit: int, steps: int) -> None:
        self.assertEqual(exact.minimum_principle(lane, limit, steps), driven_distances(lane, limit, steps))

    @EXAMPLES
    @LANES
    def test_the_principle_holds_after_acceleration(self, lane: str, limit: int, steps: int) -> None:
        """Cars that accelerate by one per step: from step `limit` on the minimum principle holds on the road that they
        reach."""
        distances = driven_distances(lane, limit, limit, limit)
        cells = [cell for cell, character in enumerate(lane) if character != "."]
        places = [(cell + distance) % len(lane) for cell, distance in zip(cells, distances)]
        road = "".join("0" if cell in places else "." for cell in range(len(lane)))
        later = dict(zip(sorted(places), exact.minimum_principle(road, limit, steps)))
        together = [distance + later[cell] for distance, cell in zip(distances, places)]
        self.assertEqual(together, driven_distances(lane, limit, limit + steps, limit))

    def test_distances_are_those_of_runs(self) -> None:
        limits_by_rule: list[tuple[Rule, tuple[int, ...]]] = [
            (exact.gap_rule, (1, 3, 12)), (Nasch(0), (1, 2, 5, 12)), (SlowToStart(0, 0), (1, 4)),
            (Rickert(0, 0), (1, 5)),
        ]
        for rule, limits in limits_by_rule:
            for limit, seed in product(limits, (1, 2)):
                lanes = 2 if isinstance(rule, Rickert) else 1 + seed % 2
                density = (0.1, 0.4)[seed - 1]
                job = Job(
                    limit=limit, length=60, lanes=lanes, density=density, start=random_cells(seed, None), rule=rule,
                    steps=130,
                )
                with self.subTest(rule=rule, limit=limit, seed=seed):
                    self.compare(job)

    def compare(self, job: Job) -> None:
        """Compare distances and positions with those that follow from the snapshots of the run, car by car."""
        roads = [snapshot.speeds() for snapshot in job.run()]
        length = len(roads[0][0])
        cars = [
            (lane, cell)
            for lane, speeds in enumerate(roads[0])
            for cell, speed in enumerate(speeds)
            if speed is not None
        ]
        distances = [0] * len(cars)
        for step, speeds in enumerate(roads):
            if step > 0:
                # A car at speed v came from the cell that is v cells behind its own.
                speed_from = {
                    (lane, (cell - speed) % length): speed
                    for lane, cells in enumerate(speeds)
                    for cell, speed in enumerate(cells)
                    if speed is not None
                }
                driven = [speed_from[car] for car in cars]
                cars = [(lane, (cell + speed) % length) for (lane, cell), speed in zip(cars, driven)]
                distances = [distance + speed for distance, speed in zip(distances, driven)]
            # The first and the last step, those around the end of the acceleration, and one between.
            if step in (0, 1, job.limit - 1, job.limit, job.limit + 1, 29, job.steps):
                self.assertEqual(exact.distances(job, step), distances, step)
                self.assertEqual(exact.positions(job, step), [cell for _, cell in cars], step)
        self.assertEqual(exact.distances(job), distances)

    def test_the_principle_is_a_bound_for_other_rules(self) -> None:
        rules: list[Rule] = [Nasch(0), Nasch(0.25), SlowToStart(0.1, 0.75), SLOW]
        for rule in rules:
            job = Job(limit=3, length=50, cars=17, start=random_cells(5), rule=rule, steps=40, key=3)
            driven = 0
            for step, snapshot in enumerate(job.run()):
                driven += sum(speed or 0 for speed in snapshot.speeds()[0]) if step else 0
                self.assertLessEqual(driven, sum(exact.minimum_principle(job.run()[0].lanes, 3, step)))
            self.assertLess(driven, sum(exact.minimum_principle(job.run()[0].lanes, 3, 40)))

    def test_very_late_steps(self) -> None:
        for limit, cars in (5, 20), (5, 60), (1, 70), (2, 40):
            job = Job(limit=limit, length=120, cars=cars, start=random_cells(1), rule=Nasch(0), steps=1)
            early, late = (exact.distances(job, step) for step in (500, 10**15))
            self.assertEqual(sum(late) - sum(early), (10**15 - 500) * min(limit * cars, 120 - cars))
            # The pattern has period 120, and after 120 steps each car has taken the place of another one.
            self.assertEqual(
                sorted(exact.positions(job, 10**15)), sorted(exact.positions(job, 500 + (10**15 - 500) % 120))
            )

    def test_forms_of_roads(self) -> None:
        self.assertEqual(exact.minimum_principle("000..0.......", 3, 5), [8, 9, 11, 12])
        self.assertEqual(exact.minimum_principle([3, None, -1, 0], 3, 2), exact.minimum_principle("0..0", 3, 2))
        self.assertEqual(exact.minimum_principle(["0..0", "...."], 3, 2), exact.minimum_principle("0..0", 3, 2))
        self.assertEqual(exact.minimum_principle("....", 3, 2), [])
        self.assertEqual(exact.minimum_principle("0", 3, 10**15), [0])

    def test_wrong_arguments(self) -> None:
        for road, limit, steps in (
            ("0.x", 1, 1), ("0.4", 3, 1), ("0.", 0, 1), ("0.", 36, 1), ("0.", 1, -1), ("0.", 1, 1.0), (7, 1, 1),
        ):
            self.assertRaisesRegex(
                ParameterError, "has the character|(limit|steps) must be|a road is a list of speeds",
                exact.minimum_principle, road, limit, steps,
            )
        job = Job(limit=3, length=20, cars=4, start=even, rule=Nasch(0), steps=9)
        for rule in Nasch(0.25), SlowToStart(0, 0.5), SlowToStart(0.5, 0), SLOW, Own(exact.gap_rule.motion, "stay\n"):
            self.assertRaisesRegex(
                ParameterError, "without randomization and lane changes", exact.distances, replace(job, rule=rule)
            )
        for rule in Rickert(0, 0.5), Rickert(0.5, 0):
            self.assertRaisesRegex(
                ParameterError, "lane changes", exact.positions, replace(job, rule=rule, lanes=2, cars=3)
            )
        self.assertRaisesRegex(
            ParameterError, "one rule throughout", exact.distances, replace(job, at={3: exact.gap_rule})
        )
        self.assertEqual(exact.distances(replace(job, at={3: Nasch(0)})), exact.distances(job))
        for step in -1, 1.5, 10**16:
            self.assertRaisesRegex(ParameterError, "step must be", exact.distances, job, step)
        self.assertRaisesRegex(ParameterError, "takes a road", exact.distances, "0..0")


if __name__ == "__main__":
    unittest.main()
