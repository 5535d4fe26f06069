"""Evenly spaced cars on two lanes: an input that does not halve them warns of the number of cars on each lane."""
import unittest
import warnings
from collections.abc import Callable
from dataclasses import replace
from typing import Any

from trlab import Job, Nasch, Sweep, TrlabWarning, even, jammed, moving, random_cells
from trlab._inputs.states import halved, surplus

JOB: dict[str, Any] = dict(limit=5, length=1000, lanes=2, rule=Nasch(0), steps=1)
SWEEP: dict[str, Any] = dict(limit=5, length=1000, lanes=2, rule=Nasch(0), warm=1, measure=1)


def cars_by_lane(job: Job) -> list[int]:
    return [len(lane) - lane.count(".") for lane in job.run()[0].lanes]


def warnings_of(make: Callable[[], object]) -> list[str]:
    with warnings.catch_warnings(record=True) as caught:
        warnings.simplefilter("always")
        make()
    assert all(warning.category is TrlabWarning and warning.filename == __file__ for warning in caught)
    return [str(warning.message) for warning in caught]


class Lanes(unittest.TestCase):
    def test_the_formula_is_that_of_the_roads(self) -> None:
        for length in range(1, 31):
            for cars in range(2 * length + 1):
                with warnings.catch_warnings():
                    warnings.simplefilter("ignore")
                    lanes = Job(limit=5, length=length, lanes=2, cars=cars, rule=Nasch(0), steps=0).road()
                first, second = (sum(cell is not None for cell in lane) for lane in lanes)
                self.assertEqual(surplus(cars, length), first - second)
                self.assertTrue(
                    all(0 <= count <= 2 * length and surplus(count, length) <= 1 for count in halved(cars, length))
                )
                self.assertEqual(halved(cars, length) == [cars], surplus(cars, length) <= 1)

    def test_every_kind_of_input_warns(self) -> None:
        for cars in 300, 100, 2:
            with warnings.catch_warnings():
                warnings.simplefilter("ignore")
                first, second = cars_by_lane(Job(**JOB, cars=cars))
            self.assertGreater(first, second + 1)
            for start in even, moving:
                for make in (
                    lambda: Job(**JOB, cars=cars, start=start), lambda: Job(**JOB, density=cars / 2000, start=start),
                    lambda: replace(Job(**JOB, cars=1, start=start), cars=cars),
                    lambda: Sweep(**SWEEP, cars=[cars], start=start),
                    lambda: Sweep(**SWEEP, densities=[cars / 2000], start=start),
                ):
                    (message,) = warnings_of(make)
                    self.assertIn(
                        f"on two lanes of 1000 cells, {cars} cars are {first} on lane 0 and {second} on lane 1: ",
                        message,
                    )
                    self.assertIn(f"or {' or '.join(map(str, halved(cars, 1000)))} instead of {cars} cars", message)
                for near in halved(cars, 1000):
                    self.assertEqual(warnings_of(lambda: Job(**JOB, cars=near, start=start)), [])

    def test_the_warning_comes_once(self) -> None:
        def study() -> None:
            for start in even, moving:
                sweep = Sweep(**SWEEP, cars=[300, 299, 100, 100, 50, 20], start=start)
                sweep.jobs(), sweep.counts(), sweep.sweep(), sweep.jobs()[0].text()
                sweep.is_of_jobs() or sweep.parts()[0].text()

        messages = warnings_of(study)
        self.assertEqual(len(messages), 2)
        examples = (
            "300 cars are 200 on lane 0 and 100 on lane 1; 100 cars are 100 on lane 0 and 0 on lane 1; 50 cars are 50 "
            "on lane 0"
        )
        for message in messages:
            self.assertIn(examples, message)
            self.assertIn("; further uneven numbers of cars: 1: use", message)

    def test_a_file_warns_too(self) -> None:
        with warnings.catch_warnings():
            warnings.simplefilter("ignore")
            text = Sweep(**SWEEP, cars=[300]).text()
        (message,) = warnings_of(lambda: Sweep.from_text(text))
        self.assertIn("300 cars are 200 on lane 0", message)

    def test_other_states_do_not_warn(self) -> None:
        one_lane: dict[str, Any] = {**JOB, "lanes": 1}
        for cars in 300, 100:
            for start in jammed, random_cells(1):
                self.assertEqual(warnings_of(lambda: Job(**JOB, cars=cars, start=start)), [])
                self.assertEqual(warnings_of(lambda: Sweep(**SWEEP, cars=[cars], start=start)), [])
            self.assertEqual(warnings_of(lambda: Job(**one_lane, cars=cars)), [])
        self.assertEqual(warnings_of(lambda: replace(Job(**JOB, cars=301), cars=0)), [])


if __name__ == "__main__":
    unittest.main()
