"""Films that the page saves: those of `trlab-lab --export`, which play without a server."""
import base64
import gzip
import html
import json
import re
import tempfile
import unittest
from pathlib import Path
from typing import Any

import trlab
from tests.browsers import missing
from tests.lab_pages import OnPage
from trlab import Job, Nasch, Own, Rickert, SlowToStart
from trlab._runs.calls import ask
from trlab.lab.export import exported

FILM = "return (await (await import('./filming.js')).filmOf(...words)).join('')"
PARTS = re.compile(r"<title>(.*?)</title>|<p class=\"lead\">(.*?)</p>|id=\"job\">(.*?)</script>", re.S)
ROAD: dict[str, Any] = {"limit": 5, "length": 50, "density": 0.2, "steps": 20, "key": 7, "start": trlab.random_cells(2)}


def parts_of(page: str) -> tuple[str, str, Any, str, str]:
    """The parts of a film: its title, its first sentence, its job, its snapshots, and the page without all of them."""
    [packed] = re.findall('id="run">(.*?)</script>', page, re.S)
    title, lead, job = [html.unescape(next(filter(None, groups))) for groups in PARTS.findall(page)]
    run = gzip.decompress(base64.b64decode(packed)).decode()
    return title, lead, json.loads(job), run, PARTS.sub("", page.replace(packed, ""))


class Films(OnPage):
    """The tests, in one browser."""

    def test_a_film_is_that_of_the_command(self) -> None:
        for job, expected_lead in (
            (Job(**ROAD, rule=Nasch("1/3")),
             "Nagel and Schreckenberg (1992), p = 0.3333333335, random seed 7: 10 cars on a ring of 50 cells"),
            (Job(**ROAD, rule=SlowToStart("1/64", "3/4"), at={5: Nasch(0)}),
             "Barlovic et al. (1998), p = 0.015625, and 0.75 if stopped, later another rule, random seed 7: "
             "10 cars on a ring of 50 cells"),
            (Job(**ROAD, rule=Own("motion\nnum r0, 0\ngo r0\n")),
             "A rule of one's own, random seed 7: 10 cars on a ring of 50 cells"),
            (Job(**dict(ROAD, key=2**255), lanes=2, rule=Rickert(0.1, 1)),
             f"Rickert et al. (1996), p = 0.1, lane changes with 1, random seed {2**255}: 20 cars on two rings of 50 cells"),
        ):
            text = job.text()
            film = parts_of(self.page.later(FILM, text))
            self.assertEqual(film, parts_of(exported(text)))
            _, lead, _, run, _ = film
            self.assertEqual(lead, f"{expected_lead}, at most 5 cells per step.")
            self.assertEqual(run, ask(["run"], text))

    def test_the_button(self) -> None:
        text = Job(**ROAD, rule=Nasch("1/4")).text()
        self.open(text)
        self.wait_for_job(text)
        self.page.js("window.URL.createObjectURL = blob => { window.saved = blob; return 'data:,'; }")
        self.page.click("savefilm")
        self.wait_until(lambda: self.page.js("return window.saved !== undefined"))
        film = self.page.later("return window.saved.text()")
        self.assertEqual(parts_of(film), parts_of(exported(text)))
        with tempfile.NamedTemporaryFile("w", suffix=".html", encoding="utf-8") as file:
            file.write(film)
            file.flush()
            self.page.get(Path(file.name).as_uri())
            self.wait_until(lambda: self.page.js("return lab.player.film?.snapshots.length") == 21)
            self.wait_until(lambda: self.page.step() == 20)
            self.page.click("follow")
            self.wait_until(lambda: "Its gap is" in self.page.text("car"))
            self.assertIn("p = 0.25, random seed 7", self.page.js("return document.querySelector('.lead').textContent"))
            self.assertFalse(self.page.js("return document.getElementById('brake').checkVisibility()"))
            self.assertEqual(self.page.errors(), [])

    def test_a_run_that_is_too_long(self) -> None:
        self.page.set("length", 100000)
        self.page.set("stepcount", 3000)
        self.wait_until(lambda: not self.page.js("return lab.isWriting") and "steps 3000\n" in self.page.job())
        self.page.click("savefilm")
        self.wait_until(lambda: "too long for a film" in self.page.text("fault"))
        self.wait_for(False, lambda: self.page.js("return document.getElementById('savefilm').disabled"))


@unittest.skipIf(missing("chromium"), missing("chromium"))
class InChromium(Films, unittest.TestCase):
    browser = "chromium"


@unittest.skipIf(missing("firefox"), missing("firefox"))
class InFirefox(Films, unittest.TestCase):
    browser = "firefox"


if __name__ == "__main__":
    unittest.main()
