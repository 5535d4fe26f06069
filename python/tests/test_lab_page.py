"""The page of trlab-lab in browsers: each snapshot is that of `trlab run`, drawn dot by dot, and the run can be played."""
import math
import unittest

import trlab
from tests.browsers import Keys, missing
from tests.lab_pages import SHOTS, OnPage, snapshots
from trlab import Job, Nasch, Rickert
from trlab._inputs.rules import Rule
from trlab._results.tables import Window as Row, Table
from trlab._runs.calls import ask


# The colour at a place of a drawing, in pixels, as "red,green,blue,opacity".
COLOUR_AT = """const colourAt = (canvas, x, y) => [...canvas.getContext('2d').getImageData(x, y, 1, 1).data].join();
const [spacetime, band, ring] = ['spacetime', 'band', 'ring'].map(id => document.getElementById(id));"""
# The characters of speeds up to 5 by their colours.
CHARACTERS = """const colourOf = speed => lab.speedColour(speed / 5).join() + ',255';
return Object.fromEntries([0, 1, 2, 3, 4, 5].map(speed => [colourOf(speed), String(speed)]))"""
# The colours of the cells that are drawn: of each lane and step of the diagram, and of each lane of the road and the ring.
DIAGRAM_CELLS = """const {film, step, rows: {top, rowHeight}} = lab.player, drawn = [];
for (let row = 0; row <= step - top; row++) {
    for (let lane = 0; lane < film.lanes; lane++) {
        const y = Math.floor((row + (lane + 0.5) / film.lanes) * rowHeight);
        const x = cell => (cell + 0.5) * spacetime.width / film.length;
        drawn.push(Array.from({length: film.length}, (_, cell) => colourAt(spacetime, x(cell), y)));
    }
}
return drawn"""
ROAD_CELLS = """const {film} = lab.player, tall = film.lanes === 2 ? 24 : 30, top = (band.height - tall * film.lanes) / 2;
return Array.from({length: film.lanes}, (_, lane) => Array.from({length: film.length}, (_, cell) =>
    colourAt(band, (cell + 0.5) * band.width / film.length, top + (lane + 0.5) * tall)))"""
RING_CELLS = """const {film} = lab.player, wide = film.lanes === 2 ? 13 : 18;
return Array.from({length: film.lanes}, (_, lane) => Array.from({length: film.length}, (_, cell) => {
    const angle = (cell + 0.5) / film.length * 2 * Math.PI, radius = 146 - 2.5 - lane * (wide + 5) - wide / 2;
    return colourAt(ring, 150 + radius * Math.sin(angle), 150 - radius * Math.cos(angle));
}))"""


class Playing(OnPage):
    """The tests, in one browser."""

    # The snapshot

    def test_every_snapshot_is_that_of_the_run(self) -> None:
        self.run_to(300)
        shots = self.are_those_of_the_run()
        self.assertGreater(len(shots), 300)
        rows = Table.read(Row, ask(["series"], self.page.job()))
        for step, _, flow, speed, stopped in shots:
            if step > 0:
                row = rows[step - 1]
                self.assertEqual((step, flow, speed, stopped), (row.step, row.flow, row.speed, row.stopped_share))

    def test_every_dot_is_that_of_the_run(self) -> None:
        for lanes, length in (1, 100), (2, 80):
            rule: Rule = Rickert(0.25, 0.5) if lanes == 2 else Nasch(0.25)
            start = trlab.random_cells(3)
            job = Job(limit=5, length=length, lanes=lanes, density=0.3, start=start, rule=rule, steps=400, key=5)
            self.open(job.text())
            self.wait_until(lambda: self.page.js("return lab.job.length") == length)
            self.run_to(60)
            step, run = self.page.step(), snapshots(self.page.job())
            characters, top = self.page.js(CHARACTERS), self.page.js("return lab.player.rows.top")
            drawn = lambda script: [
                "".join(characters.get(colour, ".") for colour in lane) for lane in self.page.js(COLOUR_AT + script)
            ]
            self.assertEqual(drawn(DIAGRAM_CELLS), [lane for snapshot in run[top : step + 1] for lane in snapshot.lanes])
            self.assertEqual(drawn(ROAD_CELLS), list(run[step].lanes))
            self.assertEqual(drawn(RING_CELLS), list(run[step].lanes))

    def test_steps_are_numbered_in_the_space_time_diagram(self) -> None:
        # The steps that are written beside the diagram, and the steps of the rows beside which they are.
        marks_of_steps = """const {top, rowHeight} = lab.player.rows;
            return [...document.querySelectorAll('#stepmarks span')].map(({textContent, style}) =>
                [Number(textContent), top + parseFloat(style.top) / rowHeight - 0.5])"""
        for length, steps, reached, distance in (10, 4, 4, 1), (100, 400, 60, 10), (1000, 5000, 700, 50):
            with self.subTest(length=length, steps=steps):
                self.open(Job(limit=5, length=length, cars=2, rule=Nasch(0.25), steps=steps).text())
                self.wait_until(lambda: self.page.js("return lab.job.length") == length)
                self.run_to(reached)
                top, marks = self.page.js("return lab.player.rows.top"), self.page.js(marks_of_steps)
                expected = [step for step in range(0, self.page.step() + 1, distance) if step >= top]
                self.assertEqual([number for number, _ in marks], expected)
                for number, row in marks:
                    self.assertAlmostEqual(number, row, places=3)

    def test_a_short_run_is_drawn_as_a_whole(self) -> None:
        for length, steps, row_height in (10, 4, 60), (60, 20, 14), (80, 40, 7), (300, 200, 3), (1000, 100, 1):
            with self.subTest(length=length, steps=steps):
                self.open(Job(limit=5, length=length, cars=5, rule=Nasch(0.25), steps=steps).text())
                size = lambda: self.page.js("const {film} = lab.player; return [film.length, film.steps]")
                self.wait_for([length, steps], size)
                self.run_to(steps)
                height, top = self.page.js("const {top, rowHeight} = lab.player.rows; return [rowHeight, top]")
                self.assertEqual((height, top), (row_height, max(0, steps + 1 - 300 // row_height)))
                self.assertEqual(self.page.text("axes"), f"Across: cells 0 to {length - 1}. Down: steps {top} to {steps}.")

    def test_the_flow_is_an_average_over_steps(self) -> None:
        self.open(Job(limit=5, length=60, cars=6, start=trlab.moving, rule=Nasch(0), steps=12).text())
        self.wait_until(lambda: self.page.js("return lab.player.film.length") == 60)
        for step in 1, 12:
            self.run_to(step)
            self.page.js("lab.player.showStep(arguments[0])", step)
            self.wait_for(["0.500", "5.00"], lambda: [self.page.text("flow"), self.page.text("speed")])

    def test_cars_move_between_steps(self) -> None:
        self.open(Job(limit=5, length=100, cars=1, rule=Nasch(0), steps=400).text())
        self.wait_until(lambda: self.page.js("return lab.job.length") == 100)
        self.run_to(50)
        # The car drives 5 cells per step. It is drawn at four times of a step, and looked for at its four places.
        drawn = self.page.js("""const {player} = lab, {scene: {cell: [end]}} = player, shares = [0, 0.4, 0.6, 1];
            const band = document.getElementById('band'), {width, height} = band, pen = band.getContext('2d');
            const isDrawnAt = cell => pen.getImageData((cell + 100) % 100 * width / 100, height / 2, 1, 1).data[3] > 0;
            return shares.map(share => {
                player.phase = share;
                player.draw(0);
                return shares.map(place => isDrawnAt(end + 0.5 - 5 * (1 - place)));
            })""")
        self.assertEqual(drawn, [[place == share for place in range(4)] for share in range(4)])

    def test_a_followed_car_is_one_car(self) -> None:
        self.page.set("model", "rickert")
        self.run_to(150)
        self.page.click("follow")
        trips = snapshots(self.page.job()).trajectories()
        seen = self.page.js("""const {film, step, car} = lab.player, cars = [];
            for (let now = film.first; now <= step; now++) cars.push(film.follow(car, now));
            return cars.map(it => [it.step, it.lane, it.cell])""")
        _, lane, cell = seen[0]
        car = list(zip(trips.lane[0], trips.cell[0])).index((lane, cell))
        self.assertEqual(seen, [[step, trips.lane[step][car], trips.cell[step][car]] for step in range(len(seen))])
        self.wait_until(lambda: self.page.js("return document.getElementById('follow').ariaPressed") == "true")
        self.wait_until(lambda: "You follow the car in lane" in self.page.text("car"))
        self.page.keys(Keys.UP)
        self.wait_until(lambda: self.page.js("return lab.player.car.cell") != seen[-1][2])
        self.follows_none()

    def test_a_click_follows_a_car(self) -> None:
        self.run_to(50)
        lane = snapshots(self.page.job())[self.page.step()].lanes[0]
        cell = next(k for k, character in enumerate(lane) if character != "." and k > 80)
        angle = 2 * math.pi * (cell + 0.5) / 1000
        self.page.click_at("ring", 150 + 135 * math.sin(angle), 150 - 135 * math.cos(angle))
        follows_a_car_near = lambda: abs(self.page.js("return lab.player.car?.cell ?? -99") - cell) <= 4
        self.wait_until(follows_a_car_near)
        self.follows_none()
        width = self.page.js("return document.getElementById('band').clientWidth")
        self.page.click_at("band", width * (cell + 0.5) / 1000, 10)
        self.wait_until(follows_a_car_near)
        self.follows_none()
        step = self.page.step()
        self.page.click_at("spacetime", width * (cell + 0.5) / 1000, step - self.page.js("return lab.player.rows.top"))
        self.wait_until(follows_a_car_near)

    # Playback

    def test_playback(self) -> None:
        self.pause()
        step = self.page.step()
        self.page.click("one")
        self.wait_until(lambda: self.page.step() == step + 1)
        self.page.keys(Keys.RIGHT)
        self.wait_until(lambda: self.page.step() == step + 2)
        self.page.click("back")
        self.page.keys(Keys.LEFT)
        self.wait_until(lambda: self.page.step() == step)
        self.page.keys(Keys.HOME)
        self.wait_until(lambda: self.page.step() == 0)
        self.page.click("back")
        self.assertEqual(self.page.step(), 0)
        self.page.keys(" ")
        self.wait_until(lambda: self.page.step() > step + 3 and self.page.text("play") == "Pause")
        self.page.set("rate", 0, "input")
        self.wait_for("1", lambda: self.page.text("rateout"))
        self.assertEqual(self.page.js("document.getElementById('again').click(); return lab.player.step"), 0)

    def test_the_end_of_a_run(self) -> None:
        self.pause()
        self.page.set("stepcount", 40)
        self.wait_until(lambda: self.page.js("const {film, step} = lab.player; return film.steps === 40 && step >= 0"))
        self.page.click("clear")
        self.page.set("rate", 100, "input")
        self.page.click("play")
        self.wait_until(lambda: self.page.step() == 40 and self.page.text("play") == "Play")
        self.assertEqual(self.page.js("return lab.marks.length"), 1)
        self.page.click("one")
        self.assertEqual(self.page.step(), 40)
        self.page.set("rate", 0, "input")  # one step per second
        self.page.click("play")
        self.wait_until(lambda: self.page.step() < 40 and self.page.text("play") == "Pause")
        self.page.set("rate", 100, "input")
        self.wait_until(lambda: self.page.step() == 40 and self.page.text("play") == "Play")

    def test_a_long_run_is_bounded(self) -> None:
        self.page.set("stepcount", 500000)
        self.page.set("length", 100)
        self.run_to(4100)
        first, last, count = self.page.js("const {film} = lab.player; return [film.first, film.last, film.snapshots.length]")
        self.assertEqual((count, last - first + 1), (4000, 4000))
        self.assertIn(f"The page keeps the last 4,000 snapshots: back to step {first}", self.page.text("kept"))
        shots = [(step, cells) for step, cells, *_ in self.page.js(SHOTS)]
        run = snapshots(self.page.job().replace("steps 500000", f"steps {last}"))
        self.assertEqual(shots, [(snapshot.step, "".join(snapshot.lanes)) for snapshot in run[first:]])
        self.page.click("again")
        self.wait_until(lambda: self.page.step() >= 0 and self.page.js("return lab.player.film.first") == 0)

    def test_a_paused_run_ends_and_goes_on(self) -> None:
        self.run_to(20)
        self.wait_until(lambda: not self.lab.children)
        self.run_to(1000)
        self.test_every_snapshot_is_that_of_the_run()


@unittest.skipIf(missing("chromium"), missing("chromium"))
class InChromium(Playing, unittest.TestCase):
    browser = "chromium"


@unittest.skipIf(missing("firefox"), missing("firefox"))
class InFirefox(Playing, unittest.TestCase):
    browser = "firefox"


if __name__ == "__main__":
    unittest.main()
