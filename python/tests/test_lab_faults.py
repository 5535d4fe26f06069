"""The page of trlab-lab on long roads, with numbers that are not accepted, and with addresses whose job cannot be opened."""
import base64
import math
import unittest
import zlib
from collections.abc import Sequence
from typing import Any

import trlab
from tests.browsers import Keys, missing
from tests.lab_pages import OnPage, job_of, snapshots
from trlab import Nasch, Rickert, Snapshots
from trlab._inputs.rules import Rule
from trlab._inputs.states import SPEEDS

Colour = Sequence[float]


class Faults(OnPage):
    # Long roads

    def long(self, **changes: Any) -> tuple[Snapshots, int]:
        """Open a long road and run some of its steps; its lanes at the step that is shown."""
        self.open(job_of(steps=400, **changes))
        self.wait_for([changes["length"], changes["cars"]], lambda: self.page.js("return [lab.job.length, lab.job.cars]"))
        self.run_to(40)
        expected = snapshots(self.page.job())
        return expected, self.page.step()

    def near(self, drawn: list[Colour], expected: list[Colour]) -> None:
        """Compare colours, which may differ by rounding."""
        self.assertEqual(len(drawn), len(expected))
        for k, (one, other) in enumerate(zip(drawn, expected)):
            is_empty = tuple(other) == (255, 255, 255) and min(one) > 240  # grey above the enlarged part
            self.assertTrue(is_empty or max(abs(a - b) for a, b in zip(one, other)) <= 6, (k, one, other))

    def colour_of(self, cells: str, colours: list[Colour]) -> Colour:
        """The colour on white of cells that share a pixel, by their mean speed and their density."""
        speeds = [SPEEDS.index(character) for character in cells if character != "."]
        if not speeds:
            return (255, 255, 255)
        strength = math.sqrt(len(speeds) / len(cells))
        return [255 - (255 - part) * strength for part in colours[round(100 * sum(speeds) / len(speeds))]]

    def colours(self) -> list[Colour]:
        """The colours of all speeds up to 5 cells per step, in hundredths."""
        return self.page.js("return Array.from({length: 501}, (_, k) => lab.speedColour(k / 500))")

    def dots(self, name: str, dots: int, y: int) -> list[Colour]:
        """The colours on white of this number of pixels at a height of a drawing."""
        return self.page.js("""const [name, dots, y] = arguments, canvas = document.getElementById(name);
            const {data} = canvas.getContext('2d').getImageData(0, y, canvas.width, 1);
            return Array.from({length: dots}, (_, k) => {
                const first = 4 * Math.floor((k + 0.5) * canvas.width / dots), opacity = data[first + 3] / 255;
                return [...data.slice(first, first + 3)].map(part => 255 + (part - 255) * opacity);
            })""", name, dots, y)

    def pixels(self, lane: str, dots: int) -> list[str]:
        """The cells of a lane that share each of this number of pixels."""
        edges = [math.ceil(k * len(lane) / dots) for k in range(dots + 1)]
        return [lane[first:last] for first, last in zip(edges, edges[1:])]

    def test_a_pixel_for_many_cells_shows_their_mean_speed_and_density(self) -> None:
        for lanes, length, cars in (1, 20000, 6000), (1, 5000, 200), (2, 4000, 3000):
            with self.subTest(lanes=lanes, length=length, cars=cars):
                rule: Rule = Nasch(0.25) if lanes == 1 else Rickert(0.25, 0.5)
                snapshots, step = self.long(length=length, lanes=lanes, cars=cars, rule=rule)
                colours, width = self.colours(), self.page.js("return document.getElementById('spacetime').width")
                top, height = self.page.js("const {top, rowHeight} = lab.player.rows; return [top, rowHeight]")
                for shown in range(max(top, step - 20), step + 1):
                    for lane, cells in enumerate(snapshots[shown].lanes):
                        expected = [self.colour_of(pixel, colours) for pixel in self.pixels(cells, width)]
                        y = (shown - top) * height + math.floor((lane + 0.5) / lanes * height)
                        self.near(self.dots("spacetime", width, y), expected)
                for lane, cells in enumerate(snapshots[step].lanes):  # the whole road, above its enlarged part
                    expected = [self.colour_of(pixel, colours) for pixel in self.pixels(cells, width)]
                    self.near(self.dots("band", width, 10 if lanes == 1 else 5 + 11 * lane), expected)
                self.assertIn("Colours of pixels are mean speeds", self.page.text("mixed"))
        self.open(job_of(length=100, cars=30))
        self.wait_until(lambda: self.page.js("return lab.job.length === 100 && lab.player.step >= 0"))
        self.wait_for("", lambda: self.page.text("mixed"))

    def test_every_car_of_the_enlarged_part_is_drawn(self) -> None:
        for lanes, length, cars in (1, 20000, 20000), (1, 100000, 30000), (2, 20000, 20000):
            with self.subTest(lanes=lanes, length=length, cars=cars):
                rule: Rule = Nasch(0.25) if lanes == 1 else Rickert(0.25, 0.5)
                start = trlab.even if cars == length * lanes else trlab.random_cells(2)
                snapshots, step = self.long(length=length, lanes=lanes, cars=cars, rule=rule, start=start)
                width, height, lens = self.page.js("""const {width, height} = document.getElementById('band');
                    return [width, height, lab.player.lens]""")
                count = math.floor(width / 9 + 0.5)  # of enlarged cells, which have 9 pixels each
                lane_height, top = (26, height - 27) if lanes == 1 else (19, height - 39)
                characters = {tuple(colour): str(speed) for speed, colour in enumerate(self.colours()[::100])}
                left = lens - count / 2  # where the enlarged part begins, in cells
                first = math.ceil(left)  # the first whole cell
                for lane, cells in enumerate(snapshots[step].lanes):
                    drawn = self.page.js("""const [left, first, count, y] = arguments;
                        const band = document.getElementById('band');
                        return Array.from({length: count - 2}, (_, k) => {
                            const x = (first + k + 0.5 - left) * band.width / count;
                            return [...band.getContext('2d').getImageData(Math.floor(x), y, 1, 1).data].slice(0, 3);
                        })""", left, first, count, top + lane * lane_height + lane_height // 2)
                    shown = "".join(characters.get(tuple(colour), ".") for colour in drawn)
                    self.assertEqual(shown, (2 * cells)[first : first + count - 2])

    # Numbers

    def type(self, selector: str, text: str) -> None:
        """Replace the text of a box as a user does, and end with Enter."""
        self.page.select(selector)
        self.page.press(*text, Keys.ENTER)

    def box(self, selector: str) -> Any:
        """The text of a box, whether it is marked as invalid, and the message about it with the message's role."""
        return self.page.js("""const it = document.querySelector(arguments[0]);
            const isInvalid = it.getAttribute('aria-invalid') === 'true';
            const message = document.getElementById(it.getAttribute('aria-describedby'));
            return [it.value, isInvalid, message.textContent, message.getAttribute('role')]""", selector)

    def test_fractions_and_decimals(self) -> None:
        self.pause()
        self.page.click("again")
        self.type("#p", "1/3")
        self.wait_for_job(job_of(rule=Nasch("1/3")))
        self.wait_for(["1/3", False, "", "alert"], lambda: self.box("#p"))
        self.wait_for("1/3", lambda: self.page.value("p"))
        self.wait_for(0.3333333333, lambda: self.page.js("return lab.job.rules[0].p"))
        cases: tuple[tuple[str, str, dict[str, Any]], ...] = (
            (".lead [data-set=p]", "1/4", {}),
            ("#p", " 5e-1", {"rule": Nasch(0.5)}),
            ("#p", ".25", {}),
            ("#density", "1/3", {"cars": 333}),
            ("#cars", "150", {}),
            (".lead [data-set=length]", "2000", {"length": 2000, "cars": 300}),
        )
        for selector, text, parameters in cases:
            with self.subTest(selector=selector, text=text):
                self.type(selector, text)
                self.wait_for_job(job_of(**parameters))
                self.assertFalse(self.box(selector)[1])
        self.wait_for(["0.15", "300"], lambda: [self.page.value("density"), self.page.value("cars")])

    def test_a_box_shows_the_number_of_the_job(self) -> None:
        self.page.set("length", "30")
        self.wait_for_line("\nlane ")
        self.wait_until(lambda: self.page.js("return lab.job.length") == 30)
        self.type("#density", "0.34")
        self.wait_for(["0.333333", "10"], lambda: [self.page.value("density"), self.page.value("cars")])

    def test_what_is_not_accepted_keeps_its_text_and_changes_nothing(self) -> None:
        self.pause()
        self.page.click("again")
        self.page.set("model", "vdr")
        self.wait_for_line("rule vdr ")
        job = self.page.job()
        self.assertEqual(self.page.js("return lab.player.film.steps"), 5000)
        is_the_same_run = "return (window.firstFilm ??= lab.player.film) === lab.player.film"
        self.assertTrue(self.page.js(is_the_same_run))
        for selector, text, message in (
            ("#p", "0,5", "Write 0.5 instead of 0,5."),
            ("#q", "1.5", "1.5 is more than 1: write a number from 0 to 1."),
            (".lead [data-set=p]", "a half", "a half is not a number: write a number from 0 to 1, such as 0.25 or 1/4."),
            ("#limit", "40", "40 is more than 35: write a whole number from 1 to 35."),
            ("#limit", "0", "0 is less than 1: "),
            ("#length", "100,000", "Write 100000, without a comma."),
            ("#cars", "1001", "1001 is more than 1000: "),
            ("#cars", "1.5", "1.5 is not a whole number: "),
            ("#density", "0.0001", "less than one car on 1000 cells: write at least 0.001, or 0."),
            ("#density", "1/0", "1/0 is not a number"),
            ("#stepcount", "", "Write a whole number from 0 to 500000."),
            ("#key", "x", "x is not a seed"),
            ("#p", "1e-11", "would be 0 in a file"),
            ("#key", str(2**256), "is not a seed"),
            ("#p", "-0.1", "-0.1 is less than 0"),
        ):
            with self.subTest(selector=selector, text=text):
                self.page.select(selector)
                self.page.press(*([*text] or [Keys.DELETE]), Keys.ENTER)
                self.wait_until(lambda: self.box(selector)[1])
                value, _, words, role = self.box(selector)
                self.assertEqual((value, role), (text, "alert"))
                self.assertIn(message, words)
                self.assertEqual((self.page.job(), self.page.js(is_the_same_run)), (job, True))
        self.page.select("#limit")
        self.page.press(Keys.ESCAPE)
        self.wait_for(["5", False, "", "alert"], lambda: self.box("#limit"))
        self.page.set("limit", "4")  # the other boxes keep their texts, until they get other values
        self.wait_for_line("\nlimit 4\n")
        self.assertEqual(self.box("#cars")[:2], ["1.5", True])
        self.page.set("cars", "10")
        self.wait_for(["10", False, "", "alert"], lambda: self.box("#cars"))
        self.page.set("example", "jams.job")
        self.wait_for(0, lambda: self.page.js("return document.querySelectorAll('[data-set][aria-invalid=true]').length"))

    def test_seeds_of_256_bits(self) -> None:
        self.page.set("key", str(2**256 - 1))
        self.wait_for_line("key " + "f" * 64 + "\n")
        self.page.set("key", "007")
        self.wait_for("7", lambda: self.page.value("key"))

    def test_a_sweep_with_steps_that_are_not_numbers(self) -> None:
        self.page.set("measure", "0")
        self.page.click("sweep")
        message = "0 is less than 1: write a whole number from 1 to 10000."
        self.assertEqual(self.box("#measure"), ["0", True, message, "alert"])
        self.assertEqual(self.page.text("sweep"), "Sweep")
        self.page.set("measure", "1/2")
        self.assertIn("1/2 is not a whole number", self.box("#measure")[2])

    def test_parameters_of_rules_in_python(self) -> None:
        self.page.set("example", "keep_distance.py")
        self.wait_for_line("; keep_distance(g=1, p=0.25)\n")
        selector = "[id='keep_distance.p']"
        self.type(selector, "1/2")
        self.wait_for_line("; keep_distance(g=1, p=0.5)\n")
        self.type(selector, "0,1")
        self.wait_for(["0,1", True, "Write 0.1 instead of 0,1.", "alert"], lambda: self.box(selector))
        self.type("[id='keep_distance.g']", "1.5")
        self.wait_until(lambda: "1.5 is not a whole number" in self.box("[id='keep_distance.g']")[2])
        self.wait_for_line("; keep_distance(g=1, p=0.5)\n")

    # Addresses

    def start_at(self, fragment: str) -> None:
        """Open the page again at an address."""
        self.page.get("about:blank")
        self.page.get(self.lab.address + fragment)
        self.wait_until(lambda: self.page.js("return window.lab !== undefined && lab.player.step > 3"))

    def link(self, text: str) -> str:
        packer = zlib.compressobj(9, zlib.DEFLATED, -15)
        return "#job=" + base64.urlsafe_b64encode(packer.compress(text.encode()) + packer.flush()).rstrip(b"=").decode()

    def test_the_message_about_an_address_stays(self) -> None:
        for fragment, message in (
            ("#job=%%%", "The job in this address is damaged and cannot be read."),
            ("#job=abcd", "The job in this address is damaged"),
            (self.link(job_of().replace("limit 5", "limit 99")), "The job in this address is rejected at line 3."),
            (self.link("a" * 64 * 2**20), "The job in this address is too long: at most 4194304 bytes are allowed."),
        ):
            with self.subTest(said=message):
                self.start_at(fragment)
                self.wait_for_job(job_of())
                shown = self.page.text("fault")
                self.assertTrue(shown.startswith(message), shown)
                self.assertTrue(shown.endswith("The page plays its first job instead."), shown)
        self.page.set("density", "0.2")
        self.wait_for_job(job_of(cars=200))
        self.wait_until(lambda: self.page.text("fault") == "")
        self.page.js("location.hash = '#job=!'")
        self.wait_until(lambda: self.page.text("fault").endswith("The page still plays the job that it had before."))
        self.wait_for_job(job_of(cars=200))

    def test_a_late_explanation_is_not_shown(self) -> None:
        """The explanation of an earlier job file comes after that of the present one, because it is held back."""
        self.page.js("""const {fetch} = window;
            window.fetch = async (address, options) => {
                const response = await fetch(address, options);
                if (address !== 'explain' || window.release) return response;
                const words = await response.text();
                await new Promise(resolve => window.release = resolve);
                return {ok: true, text: async () => {
                    setTimeout(() => window.hasCome = true);
                    return words;
                }};
            };""")
        self.page.set("density", "0.2")
        self.wait_until(lambda: self.page.js("return window.release !== undefined"))
        self.page.set("density", "0.3")
        self.wait_until(lambda: "Cars: 300." in self.page.text("explained"))
        self.page.js("window.release()")
        self.wait_until(lambda: self.page.js("return window.hasCome === true"))
        self.assertIn("Cars: 300.", self.page.text("explained"))

    # Playback

    def test_a_step_after_a_long_pause(self) -> None:
        """The run has ended in the pause, and its snapshots have to come again."""
        self.run_to(20)
        self.wait_until(lambda: self.page.js("return lab.player.run === null"))
        step = self.page.step()
        self.page.click("one")
        self.wait_for(step + 1, self.page.step)


@unittest.skipIf(missing("chromium"), missing("chromium"))
class InChromium(Faults, unittest.TestCase):
    browser = "chromium"


@unittest.skipIf(missing("firefox"), missing("firefox"))
class InFirefox(Faults, unittest.TestCase):
    browser = "firefox"


if __name__ == "__main__":
    unittest.main()
