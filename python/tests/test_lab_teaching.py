"""The page for teaching: models and examples in words, units, the followed car, and a disturbance by the user."""
import re
import unittest
from typing import Any

import trlab
from tests.browsers import Keys, missing
from tests.lab_pages import OnPage, snapshots
from trlab import Job, Nasch, Own, Rickert, SlowToStart, Snapshot
from trlab._inputs.rules import Rule
from trlab._inputs.states import SPEEDS

# Why each car brakes at each step up to words[0]: step, lane, cell, speed and reason.
REASONS = """const {reasonOf} = await import('./following.js'), {film} = lab.player, [rule] = lab.job.rules, found = [];
for (let step = 1; step <= words[0]; step++) film.at(step).cells.forEach((byte, k) => {
    const car = {step, lane: Math.floor(k / film.length), cell: k % film.length};
    if (byte !== 46) found.push([step, car.lane, car.cell, film.speed(car), reasonOf(film, car, rule)]);
});
return found"""


def speeds_by_origin(snapshot: Snapshot) -> dict[tuple[int, int], int]:
    """The speed of each car by its lane and the cell from which it moved."""
    speeds = {}
    for lane, cells in enumerate(snapshot.lanes):
        for cell, character in enumerate(cells):
            if character != ".":
                speed = SPEEDS.index(character)
                speeds[lane, (cell - speed) % len(cells)] = speed
    return speeds


class Teaching(OnPage):
    """The tests, in one browser."""

    def choose(self, example: str) -> None:
        self.page.set("example", example)
        self.wait_until_written()

    def show_job(self, **changes: Any) -> str:
        """Open a job of 24 cars on 60 cells, with changes, and return its file."""
        road = {"limit": 3, "length": 60, "cars": 24, "start": trlab.random_cells(3)}
        parameters: dict[str, Any] = {**road, "rule": Nasch("1/4"), "steps": 400, "key": 5, **changes}
        text = Job(**parameters).text()
        self.open(text)
        self.wait_for_job(text)
        self.wait_until(lambda: self.page.js("return lab.player.film.length") == 60 and self.page.step() >= 0)
        return text

    # Models and examples

    def test_each_model_is_explained(self) -> None:
        words = {"vdr": "stopped cars", "rickert": "changes lanes", "own": "verifier", "nasch": "random braking"}
        for model, word in words.items():
            self.page.set("model", model)
            self.wait_until(lambda: word in self.page.text("about"))
            address, relation, link_text = self.page.js("""const it = document.querySelector('#about a');
                return [it.getAttribute('href'), it.rel, it.textContent]""")
            self.assertTrue(address.startswith("#" if model == "own" else "https://doi.org/10."), address)
            self.assertEqual(relation, "" if model == "own" else "noopener noreferrer")
            explanation = self.page.text("about").partition(link_text)[0]
            self.assertEqual(len(re.findall(r"[.](?= |$)", explanation)), 2, "two sentences")
        self.assertEqual(self.page.js("return document.getElementById('model').getAttribute('aria-describedby')"), "about")

    def test_the_model_of_a_file_is_explained(self) -> None:
        for rule, word in (SlowToStart("1/8", "3/4"), "stopped cars"), (Nasch("1/4"), "random braking"):
            self.show_job(rule=rule)
            self.wait_until(lambda: word in self.page.text("about"))
            self.assertTrue(self.is_visible("about"), word)

    def test_every_example_has_a_name_and_a_sentence(self) -> None:
        listed = self.page.js("""const options = [...document.querySelectorAll('#example option')];
            return options.slice(1).map(it => [it.value, it.textContent, it.parentNode.label])""")
        self.assertCountEqual([value for value, _, _ in listed if "." in value], self.examples())
        for value, name, group in listed:
            self.assertTrue(group, value)
            self.assertNotIn(".", name)
        for name in "queue.job", "nasch.rule":
            self.choose(name)
            self.wait_until(lambda: self.page.text("story").endswith(f". {name}"))

    def test_there_is_time_to_watch_an_example(self) -> None:
        for example, steps, rate in (
            ("two_cars.job", 4, "1"),
            ("queue.job", 20, "2"),
            ("jams.job", 200, "19"),
            ("nasch.rule", 200, "19"),
            ("triangle.sweep", 5000, "33"),
        ):
            self.choose(example)
            self.wait_for([steps, rate], lambda: [self.page.js("return lab.job.steps"), self.page.text("rateout")])

    def test_the_road_of_a_sweep_shows_its_phenomenon(self) -> None:
        self.choose("lane_rule.sweep")
        self.wait_until(lambda: self.page.value("cars") == "60" and self.page.js("return lab.job.lanes") == 2)
        self.run_to(100)
        first_lane, second_lane = self.page.js("return lab.player.film.at(100).densities")
        self.assertGreater(first_lane, 1.5 * second_lane)
        self.choose("two_lanes.sweep")
        self.wait_for("150", lambda: self.page.value("cars"))

    def test_hysteresis_is_an_example(self) -> None:
        self.page.set("warm", 2)
        self.page.set("measure", 3)
        self.choose("Hysteresis")
        self.wait_for_line("rule vdr 33554432 1610612736\n")
        self.wait_for(["moving", "jam"], lambda: self.page.js("return lab.marks.filter(it => it.name).map(it => it.start)"))
        self.assertEqual(self.page.value("start"), "moving")
        self.assertIn("initial state decides", self.page.text("story"))

    # Units

    def test_units(self) -> None:
        self.show_job()
        self.run_to(40)
        shown = lambda: [float(self.page.text(name)) for name in ("flow", "dense", "speed")]
        maxima = lambda: self.page.js("return [...document.querySelectorAll('[data-most]')].map(it => it.textContent)")
        axis = lambda: self.page.js("return [...document.querySelectorAll('#diagram text')].map(it => it.textContent)")
        flow, density, speed = shown()
        self.assertEqual(density, 0.4)
        self.assertEqual(maxima(), ["0.75", "1", "3"])
        self.assertIn("density (cars per cell)", axis())
        self.page.set("units", "road")
        self.wait_until(lambda: "vehicles per hour and lane" in "".join(axis()) and "81 km/h" in self.page.text("legend"))
        hourly_flow, cars_per_km, kmh = shown()
        self.assertEqual(cars_per_km, 53)  # 0.4 cars per cell of 7.5 m
        # Both numbers are rounded: the flow per step to 3 digits, the speed in cells per step to 2, and the others to 0.
        self.assertLessEqual(abs(hourly_flow - 3600 * flow), 3600 * 0.0005 + 0.5)
        self.assertLessEqual(abs(kmh - 27 * speed), 27 * 0.005 + 0.5)
        self.assertEqual(maxima(), ["2700", "133", "81"])
        self.assertTrue({"500", "1000", "20", "40", "120"} <= set(axis()))
        self.page.click("follow")
        self.wait_until(lambda: re.search(r"at \d+ km/h\. Its gap is [\d.]+ m", self.page.text("car")))

    def test_points_of_other_roads(self) -> None:
        self.page.set("limit", 3)
        self.wait_until_written()
        self.page.js("""lab.marks.push(
            {limit: 5, length: 1000, lanes: 1, points: [{density: 0.2, flow: 0.4}]},
            {limit: 3, length: 1000, lanes: 1, points: [{density: 0.2, flow: 0.3}]})""")
        self.page.set("units", "cells")
        self.wait_until(lambda: "runs: v_max 5, 1000 cells" in self.page.text("diagram"))
        title = self.page.js("return document.querySelector('path.point title').textContent")
        self.assertIn("flow 0.400, v_max 5, 1000 cells", title)
        self.assertEqual(self.page.js("return document.querySelectorAll('path.point').length"), 1)

    def test_the_legend_is_not_cut(self) -> None:
        self.page.js("""const road = {limit: 35, length: 100000, lanes: 2}, points = [{density: 0.2, flow: 0.4}];
            lab.marks.push({...road, name: 'p 0.123456789, two lanes', start: 'jam', group: 1, points})""")
        self.page.set("units", "road")
        self.page.set("units", "cells")
        self.wait_until(lambda: "2 × 100000 cells" in self.page.text("diagram"))
        right = self.page.js("""const boxes = [...document.querySelectorAll('#diagram text')].map(it => it.getBBox());
            return Math.max(...boxes.map(({x, width}) => x + width))""")
        self.assertLessEqual(right, 360)

    # The followed car

    def test_why_a_car_brakes(self) -> None:
        """A car has braked at random if it is slower than without random braking, from the same road."""
        rules: tuple[tuple[Rule, Rule], ...] = (
            (Nasch("1/4"), Nasch(0)),
            (SlowToStart("1/8", "3/4"), SlowToStart(0, 0)),
            (Rickert("1/4", 1), Rickert(0, 1)),
        )
        for rule, without_braking in rules:
            lanes = 2 if isinstance(rule, Rickert) else 1
            cars = 24 * lanes
            self.show_job(rule=rule, lanes=lanes, cars=cars)
            self.run_to(40)
            shown = snapshots(self.page.job().replace("steps 400", "steps 40"))
            reasons = self.page.later(REASONS, 40)
            self.assertEqual(len(reasons), 40 * cars)
            for before in range(40):
                one_step = Job(start=shown[before].lanes, limit=3, rule=without_braking, steps=1, key=5)
                speeds = speeds_by_origin(snapshots(one_step.text())[1])
                for step, lane, cell, speed, why in reasons[before * cars : (before + 1) * cars]:
                    expected = speeds[lane, (cell - speed) % 60]
                    self.assertEqual((step, "at random" in why), (before + 1, speed < expected), why)
                    self.assertTrue(why and expected - speed in (0, 1), (why, expected, speed))

    def test_what_is_known_of_a_rule_of_ones_own(self) -> None:
        self.show_job(rule=Own("motion\nnum r0, 0\ngo r0\n"), start=["3..0.." + 54 * "."], cars=None, length=None)
        self.run_to(2)
        first_reason, *other_reasons = [why for *_, why in self.page.later(REASONS, 2)]
        self.assertEqual(first_reason, "It braked from 3 to 0 cells per step: its gap was 2 cells, and its rule chose less.")
        self.assertEqual(other_reasons, ["", "", ""])

    def test_the_followed_car(self) -> None:
        self.show_job(start=["3..0.." + 54 * "."], cars=None, length=None, rule=Nasch(0))
        self.pause()
        self.page.click("again")
        self.wait_until(lambda: self.page.step() == 0)
        self.page.js("lab.player.car = {step: 0, lane: 0, cell: 0}; lab.player.redraw()")
        self.wait_for(
            "You follow the car in cell 0, at 3 cells per step. Its gap is 2 cells, and the car ahead drives at 0 cells per "
            "step.", lambda: self.page.text("car"))
        self.page.click("one")
        self.wait_for(
            "You follow the car in cell 2, at 2 cells per step. Its gap is 1 cell, and the car ahead drives at 1 cell per "
            "step. It braked from 3 to 2 cells per step, because its gap was 2 cells.", lambda: self.page.text("car"))

    # A disturbance by the user

    def follows_in_the_new_run(self, car: dict[str, int]) -> None:
        """Wait until the page follows a car in the run that begins with its stop."""
        stopped = {"step": 0, "lane": car["lane"], "cell": car["cell"]}
        self.wait_for(stopped, lambda: self.page.js("const {film, car} = lab.player; return car && film.follow(car, 0)"))

    def test_a_car_brakes(self) -> None:
        text = self.show_job(rule=Nasch("1/4"), at={390: Nasch("1/2")})
        self.assertTrue(self.page.js("return document.getElementById('brake').disabled"))
        self.run_to(30)
        self.page.js("lab.player.showStep(30)")
        self.page.keys("b")  # nobody is followed
        self.page.click("follow")
        self.assertFalse(self.page.js("return document.getElementById('brake').disabled"))
        step, car = 30, self.page.js("return lab.player.car")
        [lane] = snapshots(text)[step].lanes
        self.page.keys("b")
        stopped = lane[:car["cell"]] + "0" + lane[car["cell"] + 1:]
        expected = Job(limit=3, start=[stopped], rule=Nasch("1/4"), steps=400, key=5, at={390 - step: Nasch("1/2")})
        self.wait_for_job(expected.text())
        self.wait_until(lambda: f"braked to a stop at step {step}." in self.page.text("story"))
        self.follows_in_the_new_run(car)
        self.run_to(50)
        shots = self.page.js("return lab.player.film.snapshots.map(it => String.fromCharCode(...it.cells))")
        run = ["".join(snapshot.lanes) for snapshot in snapshots(self.page.job())]
        self.assertEqual(shots, run[: len(shots)])

    def test_a_car_on_two_lanes_brakes_by_the_button(self) -> None:
        text = self.show_job(rule=Rickert("1/4", "1/2"), lanes=2, cars=48)
        self.run_to(20)
        self.page.click("follow")
        step, car = self.page.step(), self.page.js("return lab.player.car")
        self.page.click("brake")
        lanes = [list(lane) for lane in snapshots(text)[step].lanes]
        lanes[car["lane"]][car["cell"]] = "0"
        start = ["".join(lane) for lane in lanes]
        self.wait_for_job(Job(limit=3, start=start, rule=Rickert("1/4", "1/2"), steps=400, key=5).text())
        self.follows_in_the_new_run(car)
        self.page.keys(Keys.ESCAPE)
        self.wait_until(lambda: self.page.js("return lab.player.car") is None)

    def test_a_car_that_brakes_is_followed_no_longer(self) -> None:
        """Escape counts also before the new run has begun, and before it has a snapshot."""
        scripts = {
            "before the new run": "brake.click(); pressEscape();",
            "before its first snapshot": """player.load = (...words) => {
                delete player.load;
                player.load(...words);
                pressEscape();
            };
            brake.click();""",
        }
        for moment, script in scripts.items():
            with self.subTest(moment=moment):
                text = self.show_job()
                self.run_to(20)
                self.page.click("follow")
                self.page.act("""const {player} = lab, brake = document.getElementById('brake');
                    const escape = new KeyboardEvent('keydown', {key: 'Escape', bubbles: true});
                    const pressEscape = () => document.body.dispatchEvent(escape);""" + script)
                self.wait_until(lambda: self.page.job() != text and self.page.step() == 0)
                self.assertIsNone(self.page.js("return lab.player.car"))


@unittest.skipIf(missing("chromium"), missing("chromium"))
class InChromium(Teaching, unittest.TestCase):
    browser = "chromium"


@unittest.skipIf(missing("firefox"), missing("firefox"))
class InFirefox(Teaching, unittest.TestCase):
    browser = "firefox"


if __name__ == "__main__":
    unittest.main()
