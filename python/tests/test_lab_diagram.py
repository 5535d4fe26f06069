"""The fundamental diagram of the page with its sweeps and exact curves, and what the page saves."""
import math
import tempfile
import unittest
from pathlib import Path
from typing import Optional
from xml.etree import ElementTree

import trlab
from tests.browsers import missing
from tests.lab_pages import SHOTS, OnPage
from trlab import Job, Nasch, Rickert
from trlab._runs.calls import ask
from trlab.lab.__main__ import fragment


class Diagram(OnPage):
    """The tests, in one browser."""

    def test_a_sweep(self) -> None:
        heading = "cars,cells,steps,distance,stopped,changes,flow\n"
        self.page.click("sweep")
        self.wait_for_marks(30)
        self.wait_until(lambda: self.page.js("return lab.table").startswith(f"{heading}20,1000,300,"))
        self.wait_until(lambda: self.page.js("return document.querySelectorAll('#diagram circle').length") >= 30)
        self.page.click_at("diagram", 34 + 316 * 0.4, 120)
        self.wait_until(lambda: 390 <= int(self.page.value("cars")) <= 410)
        self.assertEqual(self.page.js("document.getElementById('clear').click(); return lab.marks.length"), 0)
        self.page.set("warm", "20")
        self.page.set("measure", "1")
        self.page.click("sweep")
        self.wait_until(lambda: self.page.js("return lab.table").startswith(f"{heading}20,1000,1,"))

    def test_the_numbers_of_a_point(self) -> None:
        """A click at a point shows its numbers; a click elsewhere sets the density."""
        self.page.click("sweep")
        self.wait_for_marks(30)
        x, y, numbers = self.page.js("""const diagram = document.getElementById('diagram');
            diagram.scrollIntoView({block: 'center'});
            const points = [...document.querySelectorAll('#diagram circle.point')], box = diagram.getBoundingClientRect();
            const point = points.find(it => it.textContent.startsWith('density 0.410'));
            const {left, top, width} = point.getBoundingClientRect();
            return [left + width / 2 - box.left + 3, top + width / 2 - box.top, point.textContent]""")
        cars = self.page.value("cars")
        self.page.click_at("diagram", x, y)
        self.wait_for(numbers, lambda: self.page.text("pointnumbers"))
        self.assertRegex(numbers, r"^density 0\.410, flow 0\.3\d\d, v_max 5, 1000 cells$")
        self.assertEqual(self.page.value("cars"), cars)
        self.page.click_at("diagram", x, y - 60)
        self.wait_until(lambda: 410 <= int(self.page.value("cars")) <= 430)
        self.assertEqual(self.page.text("pointnumbers"), "")

    def exact_curve(self) -> Optional[list[list[float]]]:
        """The points of the exact curve that is drawn, as densities and flows, or None."""
        return self.page.js("""const line = document.querySelector('#diagram .exact'), {limit} = lab.job;
            const points = line && line.getAttribute('points').split(' ').map(it => it.split(',').map(Number));
            // The axes are 316 pixels of density 1, and 222 pixels of the largest flow, from the corner (34, 240).
            return points && points.map(([x, y]) => [(x - 34) / 316, (240 - y) / 222 * limit / (limit + 1)])""")

    def wait_for_curve(self, *expected: tuple[float, float]) -> None:
        """Wait until the exact curve has these points, up to the tenth of a pixel to which it is drawn."""

        def is_drawn() -> bool:
            points = self.exact_curve() or []
            return len(points) == len(expected) and all(math.dist(*pair) < 0.001 for pair in zip(points, expected))

        self.wait_until(is_drawn)

    def test_exact_curves(self) -> None:
        self.assertIsNone(self.exact_curve())
        self.page.set("p", "0")
        self.wait_for_curve((0, 0), (1 / 6, 5 / 6), (1, 0))
        legend = lambda: self.page.text("diagram")
        self.wait_until(lambda: "exact" in legend() and "every initial state reaches" in legend())
        self.page.set("limit", "1")
        self.wait_for_curve((0, 0), (1 / 2, 1 / 2), (1, 0))
        self.page.set("p", "0.25")
        self.wait_for_curve(*((k / 100, trlab.exact.flow_as_float(1000, 10 * k, 0.25)) for k in range(101)))
        self.assertIn("over all random words", self.page.text("diagram"))
        self.page.set("length", "12")
        self.wait_for_curve(*((cars / 12, float(trlab.exact.flow(12, cars, "1/4"))) for cars in range(13)))
        self.page.set("model", "vdr")
        self.page.set("q", "0.75")
        self.wait_until(lambda: self.exact_curve() is None)
        self.page.set("q", "0.25")
        self.wait_for_curve(*((cars / 12, float(trlab.exact.flow(12, cars, "1/4"))) for cars in range(13)))
        self.page.set("lanes", "2")
        self.wait_until(lambda: self.exact_curve() is None)
        self.page.set("lanes", "1")
        self.page.set("limit", "4")
        self.wait_until(lambda: self.page.value("limit") == "4" and self.exact_curve() is None)
        self.open(Job(limit=4, length=50, cars=10, rule=trlab.exact.gap_rule, steps=400).text())
        self.wait_for_curve((0, 0), (1 / 5, 4 / 5), (1, 0))
        self.page.set("figure", "diagram")
        self.assertIn('class="exact"', self.saved("savefigure"))

    def test_runs_lie_on_exact_curves(self) -> None:
        self.open(Job(limit=5, length=300, cars=90, start=trlab.random_cells(1), rule=Nasch(0), steps=500).text())
        self.wait_until(lambda: self.page.js("return lab.job.length") == 300)
        self.run_to(500)
        # The run before this one may be a point too.
        find = "return lab.marks.find(it => it.points[0].density === 0.3)?.points ?? null"
        self.wait_until(lambda: self.page.js(find) is not None)
        (point,) = self.page.js(find)
        self.assertAlmostEqual(point["flow"], float(trlab.exact.triangle(5, 90 / 300)), places=9)

    def test_saving(self) -> None:
        self.page.set("stepcount", 300)
        self.run_to(100)
        self.assertEqual(self.saved("savejob"), self.page.job())
        self.assertEqual(self.saved("savetable"), ask(["series"], self.page.job()))
        self.assertEqual(self.page.js("return savedAs"), "series.csv")
        self.page.click("sweep")
        self.wait_until(lambda: not self.page.js("return document.getElementById('savesweep').disabled"))
        self.assertEqual(self.saved("savesweep"), self.page.js("return lab.table"))
        self.page.click("follow")
        for name in "spacetime", "diagram", "curves", "ring", "road":
            self.page.set("figure", name)
            image = ElementTree.fromstring(self.saved("savefigure"))
            self.assertEqual(image.tag, "{http://www.w3.org/2000/svg}svg")
            self.assertGreater(len(list(image.iter())), 6, name)

    def test_a_link(self) -> None:
        self.page.set("density", "0.4")
        self.page.click("link")
        self.wait_until(lambda: "#job=" in self.page.url())
        job, link = self.page.job(), self.page.url()
        self.assertEqual(fragment(link), link[link.index("#"):])
        self.page.get("about:blank")
        self.page.get(link)
        self.wait_until(lambda: self.page.js("return window.lab?.player.step >= 0"))
        self.wait_for_job(job)
        self.page.js("location.hash = '#job=!'")
        self.wait_until(lambda: "The job in this address is damaged" in self.page.text("fault"))

    def test_an_exported_file_plays(self) -> None:
        job = Job(limit=5, length=200, lanes=2, density=0.2, start=trlab.random_cells(2), rule=Rickert(0.25, 0.5), steps=120)
        snapshots = job.run()
        with tempfile.TemporaryDirectory() as folder:
            path = Path(folder) / "run.html"
            path.write_text(snapshots.html(limit=5))
            self.page.get(path.as_uri())
            self.wait_until(lambda: self.page.js("return window.lab?.player.step >= 0"))
            self.run_to(120)
            self.assertEqual([shot[1] for shot in self.page.js(SHOTS)], ["".join(shot.lanes) for shot in snapshots])
            self.page.click("back")
            self.wait_until(lambda: self.page.step() == 119)
            self.assertEqual(self.page.errors(), [])
            self.page.get("about:blank")


@unittest.skipIf(missing("chromium"), missing("chromium"))
class InChromium(Diagram, unittest.TestCase):
    browser = "chromium"


@unittest.skipIf(missing("firefox"), missing("firefox"))
class InFirefox(Diagram, unittest.TestCase):
    browser = "firefox"


if __name__ == "__main__":
    unittest.main()
