"""Two models side by side on the page: the second one has the same road and the same random numbers."""
import unittest
from typing import Any

import trlab
from tests.browsers import missing
from tests.lab_pages import OnPage, snapshots
from trlab import Job, Nasch, Rickert, SlowToStart
from trlab._inputs.rules import Rule

# The snapshots of the second model that the page keeps: step and cells.
OTHER = """const {film} = lab.comparison;
return film && film.snapshots.map(it => [it.step, String.fromCharCode(...it.cells)])"""
ROAD: dict[str, Any] = {"limit": 3, "length": 60, "cars": 24, "start": trlab.random_cells(3), "key": 5, "steps": 4000}


class Compared(OnPage):
    """The tests, in one browser."""

    def show_road(self, **changes: Any) -> None:
        """Open a job on the road, with changes."""
        text = Job(**dict(ROAD, rule=Nasch("1/4"), **changes)).text()
        self.open(text)
        self.wait_for_job(text)
        self.wait_until(lambda: self.page.js("return lab.player.film.length") == 60 and self.page.step() >= 0)

    def agrees(self, rule: Rule, **changes: Any) -> None:
        """Wait until the second model has come to the shown step. Its snapshots must be those of its own job."""
        self.wait_until(lambda: self.page.js("return lab.comparison.film?.has(lab.player.step)"))
        shots = self.page.js(OTHER)
        (first, _), (last, _) = shots[0], shots[-1]
        run = snapshots(Job(**dict(ROAD, rule=rule, steps=last, **changes)).text())
        self.assertEqual(shots, [[snapshot.step, "".join(snapshot.lanes)] for snapshot in run[first:]])

    def test_the_same_road_and_random_numbers(self) -> None:
        self.show_road()
        self.pause()
        self.assertFalse(self.is_visible("other"))
        self.page.set("against", "vdr")
        self.run_to(50)
        self.agrees(SlowToStart(0.25, 0.5))
        self.assertTrue(self.is_visible("other"))
        self.wait_until(lambda: self.page.text("compared").startswith("Slow to start: flow 0."))
        self.page.set("againstq", "3/4")
        self.run_to(self.page.step() + 20)
        self.agrees(SlowToStart(0.25, 0.75))
        self.page.set("againstp", "2")
        self.wait_until(lambda: self.page.text("againstpwrong") != "")
        self.page.set("againstp", "0.1")
        self.run_to(self.page.step() + 20)
        self.agrees(SlowToStart(0.1, 0.75))
        self.page.click("again")
        self.wait_until(lambda: self.page.step() == 0)
        self.page.set("key", "9")
        self.run_to(30)
        self.agrees(SlowToStart(0.1, 0.75), key=9)
        self.page.set("against", "")
        self.wait_for(None, lambda: self.page.js(OTHER))
        self.assertFalse(self.is_visible("other"))

    def test_the_same_model_is_the_same(self) -> None:
        """With the same model and probability both diagrams are equal, dot by dot."""
        self.show_road()
        self.page.set("against", "nasch")
        self.run_to(60)
        self.wait_until(lambda: self.page.js("return lab.comparison.drawnState.startsWith(lab.player.step + ',')"))
        same = """const [one, other] = ['spacetime', 'other'].map(id => document.getElementById(id));
            const [left, right] = [one, other].map(it => it.getContext('2d').getImageData(0, 0, it.width, it.height).data);
            return [one.width === other.width && one.width > 300, left.every((dot, k) => dot === right[k])]"""
        self.assertEqual(self.page.js(same), [True, True])

    def test_two_lanes(self) -> None:
        self.show_road(lanes=2, cars=48)
        self.page.set("against", "rickert")
        self.run_to(40)
        self.agrees(Rickert(0.25, 0.5), lanes=2, cars=48)
        self.page.set("lanes", "1")
        self.wait_until_written()
        self.wait_for(None, lambda: self.page.js(OTHER))
        self.assertTrue(self.page.js("return document.querySelector('#against [value=rickert]').hidden"))

    def test_a_paused_run_ends_and_goes_on(self) -> None:
        self.show_road()
        self.page.set("against", "vdr")
        self.run_to(20)
        self.agrees(SlowToStart(0.25, 0.5))
        self.wait_until(lambda: self.page.js("return lab.comparison.run") is None and not self.lab.children)
        self.run_to(self.page.step() + 500)
        self.agrees(SlowToStart(0.25, 0.5))


@unittest.skipIf(missing("chromium"), missing("chromium"))
class InChromium(Compared, unittest.TestCase):
    browser = "chromium"


@unittest.skipIf(missing("firefox"), missing("firefox"))
class InFirefox(Compared, unittest.TestCase):
    browser = "firefox"


if __name__ == "__main__":
    unittest.main()
