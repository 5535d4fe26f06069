"""Rules of one's own on the page, as programs: their first text, the sliders of their parameters, and their first line.
The tests run on the page with a server, and on the page as one file."""
import unittest

import trlab
from tests.browsers import Keys, missing
from tests.lab_files import InFile, lacking
from tests.lab_pages import OnPage, job_of, snapshots
from trlab import Job, Nasch, Rickert, SlowToStart
from trlab._inputs.rules import Rule

# Drivers leave g cells free, and brake with probability 1/8.
DISTANCE = """motion
; Drivers leave some cells free.
get r0, speed
num r1, 1
add r0, r0, r1
get r2, limit
min r0, r0, r2
get r2, gap
num r3, 2 ; parameter g 0 4: cells that stay free
jle r3, r2, room
num r1, 0
go r1
room: sub r2, r2, r3
min r0, r0, r2
draw r3, 0, 268435456 ; brake
jfalse r3, drive
min r1, r1, r0
sub r0, r0, r1
drive: go r0
"""


class OwnPrograms(OnPage):
    """The tests, in one browser."""

    def write(self, text: str, kind: str = "motion") -> None:
        """Replace the text of a program."""
        self.wait_until_written()
        self.page.js("""const [kind, text] = arguments, editor = document.querySelector(`#${kind} .code`);
            editor.textContent = text;
            editor.dispatchEvent(new Event('input'))""", kind, text)

    def start_at_step_0(self) -> None:
        """Pause at the first step, where a change concerns the whole run."""
        self.pause()
        self.page.click("again")
        self.wait_until(lambda: self.page.step() == 0)

    def program(self, kind: str = "motion") -> str:
        """The text of an editor, as it is shown."""
        return self.page.js("return document.querySelector(`#${arguments[0]} .code`).innerText", kind).rstrip("\n") + "\n"

    def sliders(self, kind: str = "motion") -> list[list[str]]:
        """The label, number, minimum and maximum of each slider."""
        return self.page.js("""return [...document.querySelectorAll(`#${arguments[0]}parameters .field`)].map(it => {
            const slider = it.querySelector('[type=range]');
            return [it.querySelector('label').textContent, it.querySelector('input').value, slider.min, slider.max];
        })""", kind)

    # The first text

    def test_it_begins_with_the_current_model(self) -> None:
        """The first programs are those of the current model with its probabilities: the traffic stays the same."""
        cases: tuple[tuple[Rule, int, list[str]], ...] = (
            (Nasch(0.3), 1, ["0.3"]),
            (SlowToStart(0.125, 0.75), 1, ["0.75", "0.125"]),
            (Rickert("1/3", 0.9), 2, ["1/3"]),
            (Nasch(1), 2, ["1"]),
        )
        for rule, lanes, values in cases:
            with self.subTest(rule=rule):
                cars, start = 30 * lanes, trlab.random_cells(3)
                job = Job(limit=5, length=100, lanes=lanes, cars=cars, start=start, rule=rule, steps=60, key=4)
                text = job.text()
                self.open(text)
                self.wait_for_job(text)
                self.start_at_step_0()
                self.page.set("model", "own")
                self.wait_for_line("rule own\nmotion\n")
                self.assertEqual([slider[1] for slider in self.sliders()], values)
                self.assertEqual("\nchange\n" in self.page.job(), isinstance(rule, Rickert))
                expected, now = snapshots(text), snapshots(self.page.job())
                self.assertEqual([snapshot.lanes for snapshot in now], [snapshot.lanes for snapshot in expected])
                self.page.set("model", "nasch")
                self.wait_until_written()

    def test_it_begins_with_each_model_until_it_is_changed(self) -> None:
        self.start_at_step_0()
        self.page.set("p", "0.125")
        self.page.set("model", "own")
        self.wait_for_line("; parameter p: brake at random\n")
        self.page.set("model", "vdr")
        self.page.set("q", "0.5")
        self.page.set("model", "own")
        self.wait_for_line("; parameter q: a stopped car brakes\n")
        self.write(DISTANCE)
        self.wait_for_line(DISTANCE)
        self.page.set("model", "nasch")
        self.wait_for_line("rule nasch 268435456\n")
        self.page.set("model", "own")
        self.wait_for_line(DISTANCE)

    # Sliders

    def test_a_slider_changes_the_program_and_the_run(self) -> None:
        self.page.set("p", "0")
        self.page.set("model", "own")
        self.wait_for_line("draw r3, 0, 0  ; parameter p: brake at random\n")
        self.wait_for([["p", "0", "0", "1"]], self.sliders)
        self.run_to(50)
        step = self.page.step()
        self.page.type("#motionparameters [type=range]", Keys.END)
        self.wait_for_line("draw r3, 0, 2147483648  ; parameter p: brake at random\n")
        self.assertIn("draw r3, 0, 2147483648 ", self.program())
        self.wait_for([["p", "1", "0", "1"]], self.sliders)
        self.assertIn(f"\nat {step} rule own\n", self.page.job())
        self.run_to(step + 60)
        self.are_those_of_the_run()
        cells = lambda step: self.page.js("return String.fromCharCode(...lab.player.film.at(arguments[0]).cells)", step)
        maximum_speed = lambda step: max(cells(step))  # because digits come after the point of an empty cell
        self.assertEqual(maximum_speed(step), "5")
        self.assertEqual(maximum_speed(step + 40), "4")  # a car that always brakes never reaches v_max

    def test_a_number_with_a_name(self) -> None:
        self.start_at_step_0()
        self.page.set("model", "own")
        self.write(DISTANCE)
        self.wait_for([["g", "2", "0", "4"], ["brake (line 15)", "0.125", "0", "1"]], self.sliders)
        self.page.set("motionparameter0", "3")
        self.wait_for_line(DISTANCE.replace("num r3, 2", "num r3, 3"))
        self.page.type("#motionparameters .field:first-child [type=range]", Keys.HOME)
        self.wait_for_line(DISTANCE.replace("num r3, 2", "num r3, 0"))
        self.page.set("motionparameter1", "1/3")
        self.wait_for_line(DISTANCE.replace("num r3, 2", "num r3, 0").replace("268435456", "715827883"))
        self.wait_for("1/3", lambda: self.page.value("motionparameter1"))

    def test_numbers_that_are_not_accepted(self) -> None:
        self.start_at_step_0()
        self.page.set("model", "own")
        self.write(DISTANCE)
        self.wait_for_line(DISTANCE)
        for number, text, message in (
            (1, "0,5", "Write 0.5 instead of 0,5."),
            (0, "1/2", "1/2 is not a whole number"),
            (1, "2", "2 is more than 1"),
        ):
            self.page.set(f"motionparameter{number}", text)
            self.wait_until(lambda: message in self.page.text(f"motionparameter{number}wrong"))
            self.wait_for_line(DISTANCE)

    def test_a_program_that_a_slider_makes_unsafe(self) -> None:
        """The verifier judges each program, also those that sliders make."""
        program = "motion\nget r0, gap\nget r1, limit\nmin r0, r0, r1\ndiv r0, r0, 2 ; parameter d\ngo r0\n"
        self.start_at_step_0()
        self.page.set("model", "own")
        self.write(program)
        self.wait_for_line(program)
        self.page.set("motionparameter0", "0")
        self.wait_until(lambda: "Rejected at line 5" in self.page.text("motionverdict"))
        self.wait_for_line(program)
        self.page.set("motionparameter0", "3")
        self.wait_for_line(program.replace("r0, 2", "r0, 3"))

    def test_lane_changes_have_sliders(self) -> None:
        self.page.set("model", "rickert")
        self.page.set("q", "0.25")
        self.page.set("model", "own")
        self.wait_for([["q", "0.25", "0", "1"]], lambda: self.sliders("change"))
        self.page.set("changeparameter0", "0.5")
        self.wait_for_line("draw r3, 1, 1073741824  ; parameter q: change lanes\n")

    def test_long_labels_are_not_cut(self) -> None:
        """A slider is called by the comment of its draw, which may be long, and may have a long word."""
        self.addCleanup(self.page.size, 1280, 900)
        for width in 1280, 800, 400:
            self.page.size(width, 900)
            self.page.set("example", "lane_change.rule")
            labels = lambda kind: [label for label, *_ in self.sliders(kind)]
            self.wait_for(["change with probability 1/2 (line 16)"], lambda: labels("change"))
            self.assertEqual(self.cut_labels(), [], width)
            self.write(DISTANCE.replace("; brake", f"; brake as {60 * 'x'} does"))
            self.wait_for(["g", f"brake as {60 * 'x'} does (line 15)"], lambda: labels("motion"))
            self.assertEqual(self.cut_labels(), [], width)

    def test_headings_have_room(self) -> None:
        """Above each heading of an editor there is room, so that it does not seem to belong to the editor above."""
        self.page.set("model", "rickert")
        self.page.set("model", "own")
        for kind in "motion", "change":
            self.wait_until(lambda: "Accepted" in self.page.text(f"{kind}verdict"))
        room = self.page.js("""
            const parts = document.querySelectorAll('.own :is(h2, .editor, .verdict, .facts, .parameters)');
            const visible = [...parts].filter(it => it.checkVisibility());
            const boxes = visible.map(it => it.getBoundingClientRect());
            const distances = boxes.map((box, k) => k && box.top - boxes[k - 1].bottom);
            return distances.filter((_, k) => k && visible[k].tagName === 'H2')""")
        self.assertEqual([distance >= 16 for distance in room], [True, True], room)

    def cut_labels(self) -> list[str]:
        """The labels of fields whose words are wider or higher than the label, or run into the number beside it."""
        return self.page.js("""const isCut = it => {
                const words = document.createRange();
                words.selectNodeContents(it);
                const {right} = words.getBoundingClientRect(), box = it.getBoundingClientRect();
                const number = it.nextElementSibling.getBoundingClientRect();
                const isBeside = number.top < box.bottom && number.left > box.left;
                return it.scrollWidth > it.clientWidth || it.scrollHeight > it.clientHeight + 1 ||
                    right > box.right + 1 || isBeside && right > number.left;
            };
            const labels = [...document.querySelectorAll('.field label')].filter(it => it.checkVisibility());
            return labels.filter(isCut).map(it => it.textContent)""")

    # The first line

    def test_a_program_without_its_first_line(self) -> None:
        self.page.set("model", "own")
        self.wait_until_written()
        self.wait_until(lambda: "Accepted" in self.page.text("motionverdict"))
        good, program = self.page.job(), DISTANCE.partition("\n")[2]
        self.write(program)
        self.wait_until(lambda: "Rejected at line 1" in self.page.text("motionverdict"))
        self.assertIn("A program begins with its kind: write `motion` above this line.", self.page.text("motion"))
        self.assertEqual(self.page.job(), good)
        self.page.js("document.querySelector('#motion .words button').click()")
        self.wait_for_line(DISTANCE)
        self.assertEqual(self.program(), DISTANCE)

    def test_a_program_of_the_other_kind(self) -> None:
        self.page.set("model", "own")
        self.wait_until_written()
        self.write("change\nstay\n")
        self.wait_until(lambda: "This is a program for lane changes." in self.page.text("motion"))
        self.assertIn("Rejected at line 1", self.page.text("motionverdict"))
        self.assertEqual(self.page.text("fault"), "")


class OwnProgramsAndPython(OwnPrograms):
    """The same with a server, which also has rules in Python."""

    def test_python_functions_have_the_only_sliders(self) -> None:
        self.page.set("example", "keep_distance.py")
        self.wait_for_line("; keep_distance(g=1, p=0.25)\n")
        has_sliders = lambda: self.is_visible("motionparameters")
        self.wait_for(False, has_sliders)
        self.write(DISTANCE)
        self.wait_for_line(DISTANCE)
        self.wait_for(True, has_sliders)

    def test_lane_changes_in_python_keep_the_motion_of_the_model(self) -> None:
        self.start_at_step_0()
        self.page.set("p", "0.125")
        self.wait_for_job(job_of(rule=Nasch(0.125)))
        self.open("import trlab\n\n@trlab.change\ndef swap(car, p=0.5):\n    return car.side and car.draw(p)\n", "swap.py")
        self.wait_for_line("; swap(p=0.5)\n")
        self.wait_for_line("draw r3, 0, 268435456  ; parameter p: brake at random\n")


@unittest.skipIf(missing("chromium"), missing("chromium"))
class InChromium(OwnProgramsAndPython, unittest.TestCase):
    browser = "chromium"


@unittest.skipIf(missing("firefox"), missing("firefox"))
class InFirefox(OwnProgramsAndPython, unittest.TestCase):
    browser = "firefox"


class OwnProgramsFile(InFile, OwnPrograms):
    """The tests of the file, in one browser."""


@unittest.skipIf(lacking("chromium"), lacking("chromium"))
class FileInChromium(OwnProgramsFile, unittest.TestCase):
    browser = "chromium"


@unittest.skipIf(lacking("firefox"), lacking("firefox"))
class FileInFirefox(OwnProgramsFile, unittest.TestCase):
    browser = "firefox"


if __name__ == "__main__":
    unittest.main()
