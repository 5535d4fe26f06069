"""The published rules of examples/published_rules.py: each is compared with its built-in form, a program, or a
formula."""
import os
import unittest
from random import Random

from tests.random_functions import random_view, run_program
from trlab import Grid, Job, Nasch, Own, Rickert, Rule, SlowToStart, check, jammed, moving, random_cells
from trlab._rules.functions import rules_in

EXAMPLES = os.path.join(os.path.dirname(os.path.dirname(os.path.dirname(os.path.abspath(__file__)))), "examples")
DENSITIES = 0.05, 0.15, 0.4, 0.9


def example(name: str) -> str:
    """The text of a file of the examples."""
    with open(os.path.join(EXAMPLES, name), encoding="utf-8") as file:
        return file.read()


RULES = rules_in(example("published_rules.py"))


def snapshots(rule: Rule, lanes: int = 1, density: float = 0.3, limit: int = 5, seed: int = 3) -> str:
    """The output of a short run on a road with random cars."""
    job = Job(
        limit=limit, length=80, lanes=lanes, density=density, start=random_cells(seed), rule=rule, steps=30, key=seed
    )
    return job.run().text()


def late_starts(limit: int, road: str, steps: int) -> list[list[int]]:
    """The cells of the cars by step, if a car that had no gap in a step waits once more. Whether it had one is
    remembered."""
    cells = [cell for cell, sign in enumerate(road) if sign != "."]
    speeds, was_blocked, cells_by_step = [0] * len(cells), [False] * len(cells), [sorted(cells)]
    for _ in range(steps):
        gaps = [(ahead - cell - 1) % len(road) for cell, ahead in zip(cells, cells[1:] + cells[:1])]
        speeds = [0 if late else min(speed + 1, limit, gap) for speed, gap, late in zip(speeds, gaps, was_blocked)]
        was_blocked = [gap == 0 for gap in gaps]
        cells = [(cell + speed) % len(road) for cell, speed in zip(cells, speeds)]
        cells_by_step.append(sorted(cells))
    return cells_by_step


class PublishedRules(unittest.TestCase):
    def assert_alike(self, ours: Rule, theirs: Rule, lanes: int = 1) -> None:
        """Both rules give the same snapshots, for several densities and limits."""
        for density in DENSITIES:
            for limit in 1, 5, 20:
                with self.subTest(density=density, limit=limit):
                    self.assertEqual(snapshots(ours, lanes, density, limit), snapshots(theirs, lanes, density, limit))

    def test_nagel_schreckenberg(self) -> None:
        self.assert_alike(Own(RULES["nasch"](p="1/3")), Nasch("1/3"))

    def test_slow_to_start(self) -> None:
        self.assert_alike(Own(RULES["slow_to_start"](p="1/64", p0=0.75)), SlowToStart("1/64", 0.75))

    def test_takayasu_by_its_definition(self) -> None:
        program, dice, waits = RULES["takayasu"](ps=1), Random(3), 0
        for _ in range(2000):
            view = random_view(dice)
            is_late = view["speed"] == 0 and view["gap"] == 1
            waits += is_late
            expected = 0 if is_late else min(view["speed"] + 1, view["limit"], view["gap"])
            self.assertEqual(run_program(program, view), expected)
        self.assertGreater(waits, 10)
        self.assert_alike(Own(RULES["takayasu"](ps=0)), Nasch(0))

    def test_benjamin_needs_no_memory(self) -> None:
        for limit in 1, 5:
            for seed in range(20):
                rule = Own(RULES["benjamin"](ps=1))
                job = Job(limit=limit, length=60, cars=25, start=random_cells(seed), rule=rule, steps=60)
                lanes = [snapshot.lanes[0] for snapshot in job.run()]
                cells_by_step = [[cell for cell, sign in enumerate(lane) if sign != "."] for lane in lanes]
                self.assertEqual(cells_by_step, late_starts(limit, job.run()[0].lanes[0], 60))
        self.assert_alike(Own(RULES["benjamin"](ps=0, p=0.5)), Own(RULES["takayasu"](ps=0, p=0.5)))

    def test_symmetric_lane_changes(self) -> None:
        self.assert_alike(Own(RULES["nasch"](p=0.25), RULES["symmetric"](p="2/3")), Rickert(0.25, "2/3"), lanes=2)

    def test_anticipating_is_the_program_of_the_examples(self) -> None:
        self.assert_alike(Own(RULES["anticipating"]()), Own(example("anticipating.rule")))

    def test_cruise_control_keeps_free_traffic_free(self) -> None:
        # Up to density 1 / (limit + 1) all cars drive at the limit for ever if they do so at first.
        for cars, is_free in (16, True), (17, False):
            job = Job(
                limit=5, length=96, cars=cars, start=moving, rule=Own(RULES["cruise_control"](p=0.5)), steps=300, key=1
            )
            (window,) = job.series(every=100, first=200)
            self.assertEqual(window.distance == 100 * cars * 5, is_free)
        # Without random braking it is the model of Nagel and Schreckenberg.
        self.assert_alike(Own(RULES["cruise_control"](p=0)), Nasch(0))

    def test_comfortable_driving_without_near_cars_is_slow_to_start(self) -> None:
        self.assert_alike(Own(RULES["comfortable"](p=0.1, p0=0.5, h=0)), SlowToStart(0.1, 0.5))

    def test_comfortable_driving_by_its_definition(self) -> None:
        program, dice, followers = RULES["comfortable"](p=0, p0=0, pb=1, h=6), Random(1), 0
        for _ in range(2000):
            view = random_view(dice)
            v, gap = view["speed"], view["gap"]
            follows = view["headspeed"] < v and gap / v < min(v, 6)
            followers += follows
            expected = max(min(v, view["limit"], gap) - 1, 0) if follows else min(v + 1, view["limit"], gap)
            self.assertEqual(run_program(program, view), expected)
        self.assertGreater(followers, 100)

    def test_asymmetric_lane_changes(self) -> None:
        program, symmetric, dice = RULES["asymmetric"](p=1), RULES["symmetric"](p=1), Random(2)
        for _ in range(2000):
            view = random_view(dice)
            changes = run_program(program, {**view, "lane": 0})
            self.assertEqual(changes, run_program(symmetric, view))
            has_room = view["side"] and view["sidegap"] > view["speed"] + 1 and view["sideback"] > view["limit"]
            self.assertEqual(run_program(program, {**view, "lane": 1}), has_room)
        # A few cars are soon all on lane 0.
        job = Job(
            limit=5, length=200, lanes=2, cars=4, rule=Own(RULES["nasch"](p=0), RULES["asymmetric"]()),
            start=random_cells(1), steps=200,
        )
        self.assertTrue(all(cell == "." for cell in job.run()[-1].lanes[1]))

    def test_keep_distance(self) -> None:
        # Without random braking the flow is the smaller of limit x density and 1 - (1 + g) x density (docs/STUDIES.md).
        rule = rules_in(example("keep_distance.py"))["keep_distance"]
        for g in 0, 1, 3:
            for cars in 10, 20, 40, 60:
                job = Job(limit=5, length=240, cars=cars, start=jammed, rule=Own(rule(g=g, p=0)), steps=4800, key=1)
                (window,) = job.series(every=2400, first=2400)
                density = cars / 240
                self.assertAlmostEqual(window.flow, max(min(5 * density, 1 - (1 + g) * density), 0), 3)

    def test_the_program_of_the_page(self) -> None:
        with open(os.path.join(EXAMPLES, os.pardir, "docs", "PROGRAMS.md"), encoding="utf-8") as file:
            self.assertIn(f"```text\n{rules_in(example('keep_distance.py'))['keep_distance'](g=2)}```", file.read())

    def test_a_grid_over_parameters_of_a_rule(self) -> None:
        rule = rules_in(example("keep_distance.py"))["keep_distance"]

        def make(g: int, density: float, key: int) -> Job:
            return Job(limit=5, length=50, density=density, rule=Own(rule(g=g)), steps=5, key=key)

        inputs = Grid(make, g=[0, 1, 2], density=[0.1, 0.2]).named_inputs()
        self.assertEqual(list(inputs)[:2], ["g_0_density_0.1", "g_0_density_0.2"])
        self.assertIn("; keep_distance(g=2, p=0.25)", inputs["g_2_density_0.2"].text())
        self.assertEqual(len({job.key for job in inputs.values()}), 6)

    def test_all_are_accepted(self) -> None:
        for rule in RULES.values():
            check(rule())


if __name__ == "__main__":
    unittest.main()
