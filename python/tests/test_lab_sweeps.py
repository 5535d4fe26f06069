"""Sweeps of the page from every initial state: the numbers are those of `trlab sweep` and of Python's `Sweep`."""
import re
import unittest
from typing import Any

import trlab
from tests.browsers import missing
from tests.lab_pages import OnPage, job_of
from trlab import Job, Nasch, SlowToStart, Sweep
from trlab._runs.calls import ask

ROW = "return (await import('./sweeps.js')).sweepRow(...words)"
BRANCHES = {"moving": trlab.moving, "jam": trlab.jammed}


class SweepsOfThePage(OnPage):
    """The tests, in one browser."""

    def small(self) -> None:
        """A short ring and short runs, so that sweeps take little time. At step 0 a new rule is that of the whole run."""
        self.pause()
        self.page.click("again")
        self.wait_until(lambda: self.page.step() == 0)
        self.page.set("stepcount", 5)
        for name, value in ("key", 7), ("length", 60), ("limit", 3), ("warm", 5), ("measure", 8):
            self.page.set(name, value)
        self.page.set("model", "vdr")
        self.page.set("p", "0.25")
        self.page.set("q", "0.75")
        self.wait_until_written()
        self.wait_for_line("\nrule vdr 536870912 1610612736\nsteps 5\n")

    def swept(self, **changes: Any) -> Any:
        """The table of the page's small sweep, with changes."""
        densities = [k / 50 if k <= 16 else 0.32 + (k - 16) * 0.045 for k in range(1, 31)]
        cars = sorted({round(60 * density) for density in densities})
        road = {"limit": 3, "rule": SlowToStart("1/4", "3/4"), "length": 60, "key": 7}
        parameters: dict[str, Any] = {**road, "warm": 5, "measure": 8, "cars": cars, **changes}
        return Sweep(**parameters).sweep()

    def curves(self) -> list[Any]:
        """The curves of the diagram: the model, the initial state, and the points as densities and flows."""
        return self.page.js("""const numbers = points => points.map(({density, flow}) => [density, flow]);
            return lab.marks.filter(it => it.name).map(({name, start, points}) => [name, start, numbers(points)])""")

    def test_a_row_is_that_of_a_sweep(self) -> None:
        # On two lanes a sweep counts its cars in another order than a job, so that they draw other random numbers.
        for cars, lanes, warm, measure in (4, 1, 2, 7), (30, 1, 0, 1), (0, 1, 3, 3), (31, 2, 10, 90), (60, 1, 1, 5):
            rule = Nasch("1/3" if lanes == 1 else 0)
            parameters: dict[str, Any] = {"limit": 5, "rule": rule, "length": 60, "lanes": lanes, "key": 5}
            with self.subTest(cars=cars, lanes=lanes):
                sweep = ask(["sweep"], Sweep(**parameters, warm=warm, measure=measure, cars=[cars]).text())
                job = Job(**parameters, cars=cars, start=trlab.even, steps=warm + measure).text()
                self.assertEqual(self.page.later(ROW, job, warm), sweep.splitlines()[1])

    def test_a_sweep_from_each_state(self) -> None:
        self.small()
        for name, start in ("even", trlab.even), ("random", trlab.random_cells(7)):
            with self.subTest(state=name):
                self.page.set("start", name)
                self.wait_until(lambda: self.page.js("return lab.job.start") == name)
                self.wait_until_written()
                self.page.click("clear")
                self.page.click("sweep")
                self.wait_until(lambda: len(self.curves()) == 1)
                expected = self.swept(start=start)
                [[label, state, points]] = self.curves()
                self.assertEqual((label, state), ("p 0.25, 0.75", name))
                self.assertEqual(points, [[point.density, point.flow] for point in expected])
                self.assertEqual(self.page.js("return lab.table"), expected.text())
                self.wait_for("Sweep", lambda: self.page.text("sweep"))
                self.wait_for(False, lambda: self.page.js("return document.getElementById('sweep').disabled"))
        self.assertEqual(self.page.text("fault"), "")

    def test_both_branches(self) -> None:
        self.small()
        self.page.click("clear")
        self.page.click("branches")
        self.wait_until(lambda: len(self.curves()) == 2)
        self.assertEqual([state for _, state, _ in self.curves()], ["moving", "jam"])
        for name, state, points in self.curves():
            self.assertEqual(points, [[point.density, point.flow] for point in self.swept(start=BRANCHES[state])])
        rows = self.page.js("return [...document.querySelectorAll('.legend-row')].map(it => it.textContent)")
        self.assertEqual(rows, [f"p 0.25, 0.75, {state} start: v_max 3, 60 cells" for state in ("moving", "jammed")])
        colours = self.page.js("""const curves = [...document.querySelectorAll('#diagram polyline:not(.exact)')];
            return curves.map(it => it.getAttribute('stroke')).slice(-2)""")
        self.assertEqual(len(set(colours)), 2)

    def test_moving_cars_replay(self) -> None:
        self.page.set("start", "moving")
        self.wait_for_job(job_of(start=trlab.moving))
        [lane] = re.findall("^lane (.*)$", self.page.job(), re.M)
        self.assertEqual(set(lane), {".", "5"})


@unittest.skipIf(missing("chromium"), missing("chromium"))
class InChromium(SweepsOfThePage, unittest.TestCase):
    browser = "chromium"


@unittest.skipIf(missing("firefox"), missing("firefox"))
class InFirefox(SweepsOfThePage, unittest.TestCase):
    browser = "firefox"


if __name__ == "__main__":
    unittest.main()
