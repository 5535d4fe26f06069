"""Input files: the Python that a user writes, and the exact file."""
import unittest
from fractions import Fraction
from typing import Any, Optional

from tests.expected import ALWAYS, HALF, QUARTER, TENTH, THIRD
from trlab import Density, InitialState, Job, Nasch, Own, Probability, Rickert, SlowToStart, Sweep
from trlab import even, jammed, moving, random_cells
from trlab._inputs.numbers import cars_at, key_digits, parts

DEFAULT_KEY, KEY_1 = "key " + 64 * "0", "key " + 63 * "0" + "1"


def lines(*texts: str) -> str:
    return "".join(text + "\n" for text in texts)


class Units(unittest.TestCase):
    def test_a_probability_is_rounded_to_the_nearest_multiple(self) -> None:
        quarters: list[Probability] = [0.25, "1/4", "0.25", Fraction(1, 4)]
        for probability in quarters:
            self.assertEqual(parts(probability), QUARTER)
        others: list[Probability] = [0, 0.1, "1/3", 1]
        self.assertEqual(list(map(parts, others)), [0, TENTH, THIRD, ALWAYS])

    def test_no_probability_is_outside_0_to_1(self) -> None:
        for probability in -0.001, 1.001, "5/4":
            self.assertRaisesRegex(ValueError, "a probability must be between 0 and 1", parts, probability)

    def test_a_key_is_a_number_or_digits(self) -> None:
        self.assertEqual(key_digits(255), 62 * "0" + "ff")
        self.assertEqual(key_digits(2**256 - 1), 64 * "f")
        self.assertEqual(key_digits(32 * "aB"), 32 * "aB")
        for key in -1, 2**256, "ff", 64 * "g":
            self.assertRaisesRegex(ValueError, "key must be", key_digits, key)

    def test_a_density_is_the_nearest_count(self) -> None:
        densities: list[Density] = [0, 0.0854, "1/3", 1]
        self.assertEqual([cars_at(density, 1000) for density in densities], [0, 85, 333, 1000])
        self.assertRaisesRegex(ValueError, "density must be between 0 and 1", cars_at, 1.5, 10)


class InitialStates(unittest.TestCase):
    def road(self, start: InitialState, cars: int = 4, length: int = 12, lanes: int = 1) -> list[str]:
        text = Job(limit=5, length=length, lanes=lanes, cars=cars, start=start, rule=Nasch(0), steps=0).text()
        return [line[5:] for line in text.split("\n") if line.startswith("lane ")]

    def test_even_cars_are_stopped(self) -> None:
        self.assertEqual(self.road(even), ["0..0..0..0.."])

    def test_even_cars_alternate_between_two_lanes(self) -> None:
        # Five cars on eight cells: cells 0, 1, 3, 4 and 6, of which those with odd numbers are on lane 1.
        self.assertEqual(self.road(even, cars=5, length=4, lanes=2), ["0.00", "00.."])

    def test_moving_cars_are_at_the_limit(self) -> None:
        self.assertEqual(self.road(moving), ["5..5..5..5.."])

    def test_a_jam_is_one_block(self) -> None:
        self.assertEqual(self.road(jammed), ["0000........"])
        self.assertEqual(self.road(jammed, cars=5, length=4, lanes=2), ["000.", "00.."])

    def test_random_cells_depend_on_their_seed(self) -> None:
        self.assertEqual(self.road(random_cells(1)), self.road(random_cells(1)))
        self.assertNotEqual(self.road(random_cells(1)), self.road(random_cells(2)))
        self.assertEqual(self.road(random_cells(1)), ["0..0....00.."])
        self.assertEqual(self.road(random_cells(1, speed=3))[0].count("3"), 4)

    def test_speeds_are_a_road(self) -> None:
        speeds: list[Optional[float]] = [0, None, 35, None, 10]
        job = Job(limit=35, start=speeds, rule=Nasch(0), steps=0)
        self.assertIn("\nlane 0.z.a\n", job.text())
        self.assertEqual(job.length, 5)
        self.assertEqual(job.lanes, 1)
        self.assertEqual(job.road(), [[0, None, 35, None, 10]])
        lanes: list[list[Optional[float]]] = [[0, -1], [None, 5]]
        two_lanes = Job(limit=5, start=lanes, rule=Nasch(0), steps=0)
        self.assertEqual(two_lanes.length, 2)
        self.assertEqual(two_lanes.lanes, 2)
        self.assertEqual(two_lanes.cells(), 4)
        self.assertEqual(two_lanes.count(), 2)
        self.assertIn("\nlane 0.\nlane .5\n", two_lanes.text())

    def test_a_road_has_its_own_cars(self) -> None:
        self.assertRaisesRegex(
            ValueError, "has its own cars", Job, limit=5, start=[0, None], cars=1, rule=Nasch(0), steps=0
        )

    def test_names_of_initial_states_are_no_roads(self) -> None:
        for limit, name in (5, "random"), (35, "random"), (5, "even"), (5, "jam"), (5, "moving"):
            with self.assertRaisesRegex(ValueError, f"or even, moving, .*without quotation marks, not '{name}'"):
                Job(limit=limit, start=name, length=10, cars=2, rule=Nasch(0), steps=0)
        self.assertEqual(Job(limit=35, start=["random"], rule=Nasch(0), steps=0).road()[0][1], 10)

    def test_no_more_cars_than_cells(self) -> None:
        self.assertRaisesRegex(ValueError, "cars must be between 0 and 12", self.road, even, cars=13)


class InputFiles(unittest.TestCase):
    def test_the_file_of_a_job(self) -> None:
        rule, later = SlowToStart("1/64", 0.75), {9: Nasch(1), 3: Nasch(0)}
        job = Job(limit=5, length=6, density="1/3", rule=rule, steps=20, key=1, at=later)
        self.assertEqual(
            job.text(),
            lines("road 1", KEY_1, "limit 5", "lane 0..0..", f"rule vdr {ALWAYS // 64} {3 * QUARTER}", "steps 20")
            + lines("at 3 rule nasch 0", f"at 9 rule nasch {ALWAYS}"),
        )

    def test_programs_of_the_user(self) -> None:
        motion, change = "motion\nnum r0, 0 ; stand\ngo r0\n", "stay"
        job = Job(limit=1, start=["0", "0"], rule=Own(motion, change), steps=2, at={1: Own("code 54")})
        self.assertEqual(
            job.text(),
            lines("road 1", DEFAULT_KEY, "limit 1", "lane 0", "lane 0", "rule own")
            + lines("motion", "num r0, 0 ; stand", "go r0", "end")
            + lines("change", "stay", "end", "steps 2", "at 1 rule own", "code 54"),
        )

    def test_the_file_of_a_sweep(self) -> None:
        sweep = Sweep(limit=5, length=10, lanes=2, rule=Rickert(0, 0.5), warm=1, measure=2, densities=[0, 0.35, 1])
        self.assertEqual(
            sweep.text(),
            lines("sweep 1", DEFAULT_KEY, "limit 5", "length 10", "lanes 2", f"rule rickert 0 {HALF}")
            + lines("warm 1", "measure 2", "cars 0", "cars 7", "cars 20"),
        )

    def test_cars_or_densities(self) -> None:
        wrong_points: list[dict[str, Any]] = [{}, {"cars": [1], "densities": [0.1]}]
        for points in wrong_points:
            self.assertRaisesRegex(
                ValueError, "either `cars` or `densities`", Sweep, limit=5, length=10, rule=Nasch(0), warm=0, measure=1,
                **points,
            )
