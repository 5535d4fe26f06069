"""The controls of the page: each changes the job, and the job file says the same."""
import unittest
from typing import Any

import trlab
from tests.browsers import Keys, missing
from tests.lab_pages import OnPage, job_of, snapshots
from trlab import Nasch, Rickert, SlowToStart
from trlab._runs.calls import ask


class Controls(OnPage):
    """The tests, in one browser."""

    def test_every_control(self) -> None:
        page = self.page
        self.pause()
        page.click("again")
        # A control, its new value, and the parameters of the job that are then not those of the first job.
        changes: list[tuple[str, str, dict[str, Any]]] = [
            ("density", "0.3", {"cars": 300}),
            ("cars", "151", {"cars": 151}),
            ("limit", "7", {"cars": 151, "limit": 7}),
            ("limit", "35", {"cars": 151, "limit": 35}),
            ("limit", "5", {"cars": 151}),
            ("start", "even", {"cars": 151, "start": trlab.even}),
            ("start", "jam", {"cars": 151, "start": trlab.jammed}),
            ("start", "random", {"cars": 151}),
            ("key", "77", {"cars": 151, "key": 77, "start": trlab.random_cells(77)}),
            ("key", "1", {"cars": 151}),
            ("p", "0.5", {"cars": 151, "rule": Nasch(0.5)}),
            ("p", "0.123456789", {"cars": 151, "rule": Nasch(0.123456789)}),
            ("p", "0.25", {"cars": 151}),
            ("stepcount", "60", {"cars": 151, "steps": 60}),
            ("stepcount", "5000", {"cars": 151}),
            ("model", "vdr", {"cars": 151, "rule": SlowToStart(0.25, 0.5)}),
            ("q", "0.75", {"cars": 151, "rule": SlowToStart(0.25, 0.75)}),
            ("model", "nasch", {"cars": 151}),
            ("length", "500", {"cars": 76, "length": 500}),
            ("lanes", "2", {"cars": 151, "length": 500, "lanes": 2}),
            ("model", "rickert", {"cars": 151, "length": 500, "lanes": 2, "rule": Rickert(0.25, 0.75)}),
        ]
        for name, value, parameters in changes:
            with self.subTest(name=name, value=value):
                page.set(name, value)
                self.wait_for_job(job_of(**parameters))
                self.agree()
        page.set("model", "own")
        self.wait_for_line("rule own\nmotion\n")
        self.wait_for_line("\nchange\n")
        self.wait_until(lambda: "Accepted" in page.text("motionverdict") and "Accepted" in page.text("changeverdict"))
        page.set("lanes", "1")
        self.wait_until(lambda: "\nchange\n" not in page.job())
        page.click("newkey")
        self.wait_until(lambda: page.value("key") != "1")
        self.wait_for_line(f"key {int(page.value('key')):064x}\n")

    def agree(self) -> None:
        """The controls, the sentence and the file say the same, and trlab accepts it."""
        text = self.page.job()
        ask(["explain", "run"], text)
        lanes = [line[5:] for line in text.splitlines() if line.startswith("lane ")]
        cars = sum(len(lane) - lane.count(".") for lane in lanes)
        shown = lambda: self.page.js("""return Object.fromEntries(['cars', 'length', 'limit', 'lanes'].map(name =>
            [name, [...new Set([...document.querySelectorAll(`[data-set=${name}]`)].map(it => +it.value))]]))""")
        limit = int(text.split("\nlimit ")[1].split("\n")[0])
        self.wait_for({"cars": [cars], "length": [len(lanes[0])], "limit": [limit], "lanes": [len(lanes)]}, shown)

    def test_the_sentence(self) -> None:
        self.page.select(".lead [data-set=cars]")
        self.page.press(*"200", Keys.ENTER)
        self.wait_for_job(job_of(cars=200))
        self.page.select(".lead [data-set=p]")
        self.page.press("0", Keys.ENTER)
        self.wait_for_line("rule nasch 0\n")

    def test_sliders(self) -> None:
        for _ in range(30):
            self.page.type("#density ~ [type=range]", Keys.RIGHT)
        self.wait_for("0.3", lambda: self.page.value("density"))
        self.wait_for_job(job_of(cars=300))
        self.wait_until(lambda: len(self.lab.children) <= 1 and not self.page.text("fault"))

    def test_every_slider(self) -> None:
        self.page.set("model", "vdr")
        self.wait_for_line("rule vdr ")
        for name in "p", "q", "density", "limit", "length", "cars":
            value = self.page.js("""const slider = document.querySelector(`#${arguments[0]} ~ [type=range]`);
                slider.value = +slider.min + 0.4 * (slider.max - slider.min);
                slider.dispatchEvent(new Event('input', {bubbles: true}));
                return slider.value""", name)
            self.wait_for(float(value), lambda: float(self.page.value(name)))
            self.wait_until_written()
            self.agree()

    def test_the_enlarged_part_can_be_dragged(self) -> None:
        self.page.set("density", "0.01")
        self.pause()
        width = self.page.js("return document.getElementById('band').clientWidth")
        empty = snapshots(self.page.job())[self.page.step()].lanes[0].index("." * 60) + 30
        self.page.drag("band", empty / 1000 * width, 0.8 * width, 8)
        self.wait_until(lambda: abs(self.page.js("return lab.player.lens") - 800) < 5)

    def test_a_change_on_the_way_is_an_at_line(self) -> None:
        self.run_to(100)
        step = self.page.step()
        self.page.set("p", "0.5")
        self.wait_for_line(f"steps 5000\nat {step} rule nasch 1073741824\n")
        self.assertEqual(self.page.step(), step)
        self.run_to(step + 100)
        later = self.page.step()
        self.page.set("model", "vdr")
        self.wait_for_line(f"at {later} rule vdr 1073741824 1073741824\n")
        self.run_to(later + 100)
        self.are_those_of_the_run()
        self.page.click("again")
        self.wait_until(lambda: self.page.value("p") == "0.25" and self.page.value("model") == "nasch")
        self.page.set("density", "0.2")
        self.wait_for_job(job_of(cars=200))

    def test_many_changes_on_the_way(self) -> None:
        self.page.set("rate", 80, "input")
        self.wait_until(lambda: self.page.step() > 50)
        self.page.later("""const slider = document.querySelector('#p ~ [type=range]');
            for (let k = 1; k <= 40; k++) {
                slider.value = k / 40;
                slider.dispatchEvent(new Event('input', {bubbles: true}));
                const step = lab.player.step;
                if (k % 10 === 0) while (lab.isWriting || lab.player.step === step) await new Promise(requestAnimationFrame);
            }""")
        self.wait_for_line(" rule nasch 2147483648\n")
        self.run_to(self.page.step() + 50)
        self.assertGreater(self.page.job().count("\nat "), 1)
        self.are_those_of_the_run()


@unittest.skipIf(missing("chromium"), missing("chromium"))
class InChromium(Controls, unittest.TestCase):
    browser = "chromium"


@unittest.skipIf(missing("firefox"), missing("firefox"))
class InFirefox(Controls, unittest.TestCase):
    browser = "firefox"


if __name__ == "__main__":
    unittest.main()
