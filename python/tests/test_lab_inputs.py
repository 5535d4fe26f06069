"""Inputs of the page: examples, files, and what you type into its editors, with the messages about them."""
import re
import unittest

from tests.browsers import Keys, missing
from tests.lab_pages import OnPage, job_of
from trlab._rules.functions import rules_in
from trlab._runs.calls import ask
from trlab.lab import server

KEY = "key " + "0" * 64


class Inputs(OnPage):
    """The tests, in one browser."""

    def test_every_example(self) -> None:
        texts = self.examples()
        listed = self.page.js("return [...document.querySelectorAll('#example option')].slice(1).map(it => it.value)")
        self.assertCountEqual([name for name in listed if "." in name], texts)
        for name, text in texts.items():
            with self.subTest(name=name):
                self.page.set("example", name)
                kind = name.rpartition(".")[2]
                if kind == "job":
                    self.wait_until(lambda: self.page.job() == text)
                elif kind == "sweep":
                    self.wait_for(ask(["sweep"], text), lambda: self.page.js("return lab.table"))
                    self.wait_for_marks(text.count("\ncars "))
                elif kind == "py":
                    self.wait_until(lambda: f"; {next(iter(rules_in(text)))}(" in self.page.job())
                else:
                    self.wait_until(lambda: text in self.page.job())
                self.wait_until(lambda: self.page.text("textverdict") == "Accepted." and self.page.step() >= 0)
                self.assertEqual(self.page.text("fault"), "")

    def test_the_same_example_again(self) -> None:
        """When the list opens, the chosen example is its first line, so that choosing the same one is a change."""
        text = self.examples()["two_cars.job"]
        first = """const it = document.getElementById('example');
            return [it.value, it.selectedOptions[0].text, it.options[0].text]"""
        self.page.set("example", "two_cars.job")
        self.wait_for_job(text)
        self.wait_for(["two_cars.job", "Two cars", "choose"], lambda: self.page.js(first))
        self.page.set("limit", "3")
        self.wait_for_line("limit 3\n")
        self.page.js("document.getElementById('example').dispatchEvent(new MouseEvent('mousedown', {bubbles: true}))")
        self.assertEqual(self.page.js(first), ["", "Two cars", "Two cars"])
        self.page.set("example", "two_cars.job")
        self.wait_for_job(text)
        self.wait_for(["two_cars.job", "Two cars", "choose"], lambda: self.page.js(first))

    def write(self, selector: str, text: str) -> None:
        """Replace the text of an editor, once the page has no change that it still has to write there."""
        self.wait_until_written()
        self.page.js("""const [selector, text] = arguments, editor = document.querySelector(selector);
            editor.textContent = text;
            editor.dispatchEvent(new Event('input'))""", selector, text)

    def test_a_job_file_that_you_type(self) -> None:
        job = f"road 1\n{KEY}\nlimit 3\nlane 0.0.......\nrule nasch 0.25\nsteps 40"
        self.write("#text .code", job)
        self.wait_until(lambda: "536870912" in self.page.text("text"))
        self.wait_until(lambda: "Rejected at line 5" in self.page.text("textverdict"))
        self.write("#text .code", job.replace("0.25", "536870912"))
        self.page.type("#text .code", Keys.CONTROL, Keys.END)
        self.page.press("0")
        values = lambda: [self.page.value(name) for name in ("p", "limit", "length", "lanes", "start", "stepcount", "cars")]
        self.wait_until(lambda: values() == ["0.25", "3", "10", "1", "file", "400", "2"])
        self.page.press(Keys.ENTER, *"at 10 rule nasch 0")
        self.wait_until(lambda: self.page.js("return lab.job.rules.length") == 2)
        self.wait_for_job(job.replace("0.25", "536870912") + "0\nat 10 rule nasch 0\n")

    def test_a_rejected_program(self) -> None:
        self.page.set("example", "keep_distance.rule")
        self.wait_until(lambda: "at most 10 instructions" in self.page.text("motionverdict"))
        self.wait_for_line("rule own\nmotion\n")
        program, good = server.examples()["keep_distance.rule"], self.page.job()
        lines = program.splitlines()
        bad = "\n".join(line for line in lines if "jle" not in line and "go r2" not in line)
        self.write("#motion .code", bad)
        self.wait_until(lambda: "Rejected at line 9" in self.page.text("motionverdict"))
        self.wait_until(lambda: "Reason 9" in self.page.text("motion"))
        self.wait_for_job(good)
        low, high = self.page.js("""const box = it => document.querySelector(it).getBoundingClientRect();
            return [box('#motion .code').top, box('#motion .words').top]""")
        self.assertAlmostEqual(high - low, 9 * 20 + 4, delta=3)  # the words are below line 9
        self.write("#motion .code", program)
        self.wait_until(lambda: "Accepted" in self.page.text("motionverdict"))
        self.page.type("#motion .code", Keys.CONTROL, Keys.HOME)
        self.page.press(*[Keys.DOWN] * 4)
        self.wait_until(lambda: "Known before line 5: r0:" in self.page.text("motionfacts"))

    def test_a_rule_in_python(self) -> None:
        text = server.examples()["keep_distance.py"]
        self.page.set("example", "keep_distance.py")
        self.wait_for_line("; keep_distance(g=1, p=0.25)\n")
        self.wait_until(lambda: "keep_distance takes at most 14 instructions" in self.page.text("pythonverdict"))
        good = self.page.job()
        self.write("#python .code", text.replace("max(car.gap - g, 0)", "car.gap - g"))
        self.wait_until(lambda: "Rejected at line 10" in self.page.text("pythonverdict"))
        self.wait_until(lambda: "may be below 0" in self.page.text("python"))
        self.wait_for_job(good)
        self.write("#python .code", text.replace("g=1", "g=3"))
        self.wait_for_line("; keep_distance(g=3, p=0.25)\n")
        self.run_to(20)
        self.page.set("keep_distance.g", "5")
        self.wait_for_line("; keep_distance(g=5, p=0.25)\n")
        self.wait_until(lambda: re.search(r"\nat \d+ rule own\nmotion\n; keep_distance\(g=5,", self.page.job()))
        self.write("#motion .code", "motion\nnum r0, 0\ngo r0")
        self.wait_until(lambda: "not those of these functions" in self.page.text("pythonverdict"))

    def test_rules_in_python_for_two_lanes(self) -> None:
        self.page.set("example", "published_rules.py")
        self.wait_for_line("; nasch(p=0.5)\n")
        self.wait_for_line("; symmetric(p=1.0)\n")
        self.page.set("motionrule", "comfortable")
        self.wait_for_line("; comfortable(p=0.1, p0=0.5, pb=0.94, h=6)\n")
        self.page.set("changerule", "asymmetric")
        self.wait_for_line("; asymmetric(p=1.0)\n")
        self.page.set("asymmetric.p", "0.5")
        self.wait_for_line("; asymmetric(p=0.5)\n")
        self.assertFalse(self.page.js("return document.getElementById('asymmetric.p').parentNode.hidden"))
        self.page.set("lanes", "1")
        self.wait_until(lambda: self.page.js("return document.getElementById('asymmetric.p').parentNode.hidden"))
        self.wait_until(lambda: "\nchange\n" not in self.page.job())

    def fix(self, name: str) -> None:
        """Click on the change that the message in an editor proposes."""
        button = f"document.querySelector('#{name} .words button')"
        self.wait_until(lambda: self.page.js(f"return {button} !== null"))
        self.page.js(f"{button}.click()")
        self.wait_until(lambda: "Accepted" in self.page.text(f"{name}verdict"))

    def test_a_change_that_you_click(self) -> None:
        job = f"road 1\n{KEY}\nlimit 5\nlane 0.0.......\nrule nasch 0\nsteps 100\n"
        for line, wrong in (
            ("limit 5\n", ""), ("steps 100\n", ""), ("limit 5\n", "limit 5\nlimit 5\n"), ("limit 5", "Limit 5"),
            ("limit 5", "limit 05"), ("nasch 0", "nasch 0 ; free"), ("rule nasch 0", "\trule nasch 0"), (KEY, "key 0"),
            ("steps", "\nsteps"),
        ):
            with self.subTest(line=line, wrong=wrong):
                self.write("#text .code", job.replace(line, wrong).rstrip("\n"))
                self.fix("text")
                self.wait_for_job(job)
        self.wait_until(lambda: self.page.js("return lab.job.cars") == 2)

    def test_a_change_of_a_program_that_you_click(self) -> None:
        self.page.set("model", "own")
        for wrong, fixed in (
            ("gte r0, gap\ngo r0", "get r0, gap\ngo r0"),
            ("get r0, gap\njump 3\ngo r0", "get r0, gap\njump @3\ngo r0"),
        ):
            self.wait_until(lambda: "Accepted" in self.page.text("motionverdict"))
            self.write("#motion .code", f"motion\nget r1, limit\n{wrong}".replace("go r0", "min r0, r0, r1\ngo r0"))
            self.wait_until(lambda: "Rejected" in self.page.text("motionverdict"))
            self.fix("motion")
            expected = f"motion\nget r1, limit\n{fixed}\n".replace("go r0", "min r0, r0, r1\ngo r0")
            self.wait_until(lambda: f"rule own\n{expected}end\n" in self.page.job())

    def test_a_change_in_words(self) -> None:
        edits = [
            {"line": 2, "first": 3, "last": 2, "replacement": "\\x5c"},
            {"line": 3, "first": 1, "last": 2, "replacement": ""},
        ]
        fixed = self.page.later("""const {repaired} = await import('./editor.js');
            return repaired("\u00e9\\n\u00e9a\\nb\\nc\\n", {why: "so.", edits: words[0]})""", edits)
        self.assertEqual(fixed, {"words": "Insert `\\`, Delete `b`: so.", "text": "\u00e9\n\u00e9\\a\nc\n"})

    def test_a_rejected_file(self) -> None:
        self.open("road 2\n")
        self.wait_until(lambda: "a.job is rejected" in self.page.text("fault"))
        self.wait_for_job(job_of())

    def test_a_file_of_the_disk(self) -> None:
        for name in "two_cars.job", "lane_change.rule":
            self.page.js("""const files = new DataTransfer(), place = document.getElementById('file');
                files.items.add(new File([arguments[1]], arguments[0]));
                place.files = files.files;
                place.dispatchEvent(new Event('change', {bubbles: true}))""", name, server.examples()[name])
            self.wait_until(lambda: server.examples()[name] in self.page.job())
        self.page.js("""const place = document.getElementById('file'), files = new DataTransfer();
            files.items.add(new File(['a'.repeat(4194305)], 'long.job'));
            place.files = files.files;
            place.dispatchEvent(new Event('change', {bubbles: true}))""")
        self.wait_until(lambda: "long.job is too long" in self.page.text("fault"))


@unittest.skipIf(missing("chromium"), missing("chromium"))
class InChromium(Inputs, unittest.TestCase):
    browser = "chromium"


@unittest.skipIf(missing("firefox"), missing("firefox"))
class InFirefox(Inputs, unittest.TestCase):
    browser = "firefox"


if __name__ == "__main__":
    unittest.main()
