"""Input files as Python reads them: the same bytes again, or an error."""
import tempfile
import unittest
import warnings
from dataclasses import replace
from fractions import Fraction
from pathlib import Path
from typing import Any, Union

from tests.expected import ALWAYS, QUARTER
from trlab import Job, Nasch, Own, ParameterError, RejectedInputError, Rickert, Rule, SlowToStart, Sweep, TrlabWarning
from trlab import check, explain

TOP = Path(__file__).resolve().parents[2]
ZERO = f"key {64 * '0'}\n"
JOB = f"road 1\n{ZERO}limit 5\nlane 0..3.\nrule nasch {QUARTER}\nsteps 9\n"
TWO = JOB.replace("lane 0..3.\n", "lane 0..3.\nlane .....\n")
SWEEP = f"sweep 1\n{ZERO}limit 5\nlength 9\nlanes 1\nrule vdr 1 {ALWAYS}\nwarm 0\nmeasure 4\ncars 3\ncars 0\n"
STOP = "num r0, 0\ngo r0\n"
GO = "code 54524c4201000200" + "0100000000000000" + "1400000000000000"  # the bytes of STOP
STAY = "code 54524c4201010100" + "1600000000000000"  # a change program of one instruction, `stay`
Input = Union[Job, Sweep]
KINDS: list[tuple[type[Input], str]] = [(Job, JOB), (Sweep, SWEEP)]


def files(suffix: str) -> list[Path]:
    """The input files of the examples and the studies with this suffix."""
    paths = [*(TOP / "examples").iterdir(), *(TOP / "studies").glob("*/texts/*")]
    return sorted(path for path in paths if path.suffix == suffix)


class Files(unittest.TestCase):
    def setUp(self) -> None:
        warnings.simplefilter("ignore", TrlabWarning)

    def test_every_file_of_the_repository_again(self) -> None:
        suffixes: list[tuple[type[Input], str, int]] = [(Job, ".job", 40), (Sweep, ".sweep", 80)]
        for kind, suffix, minimum in suffixes:
            paths = files(suffix)
            # The repository has more, and the test must not pass because it finds none.
            self.assertGreater(len(paths), minimum)
            for path in paths:
                self.assertEqual(kind.read(path).text().encode(), path.read_bytes(), path)

    def test_a_job_is_one_that_python_can_write(self) -> None:
        text = JOB + f"at 0 rule rickert 0 1\nat 3 rule own\nmotion\n{STOP}end\nat 7 rule own\n{GO}\n"
        text = text.replace("lane 0..3.\n", "lane 0..3.\nlane .z...\n").replace("limit 5", "limit 35")
        at: dict[int, Rule] = {0: Rickert(0, Fraction(1, 2**31)), 3: Own("motion\n" + STOP), 7: Own(GO)}
        job = Job(limit=35, start=["0..3.", ".z..."], rule=Nasch(Fraction(1, 4)), steps=9, at=at)
        self.assertEqual(Job.from_text(text), job)
        self.assertEqual(job.text(), text)
        self.assertEqual(Job.from_text(text).run(), job.run())

    def test_a_sweep_is_one_that_python_can_write(self) -> None:
        sweep = Sweep(limit=5, length=9, rule=SlowToStart(Fraction(1, 2**31), 1), warm=0, measure=4, cars=[3, 0])
        self.assertEqual(Sweep.from_text(SWEEP), sweep)
        self.assertEqual(sweep.text(), SWEEP)
        self.assertEqual(Sweep.from_text(SWEEP).sweep(), sweep.sweep())

    def test_programs_with_everything_that_they_may_contain(self) -> None:
        for motion in "", "\n", "\n\n", "; a comment \u00e9 \u2028 \x0b\r\n", "  \n":
            for after in "", "\n", "\n\n", "; end\n", "end ; of it\n", " end\n":
                for change in "", "change\nstay\nend\n", "change\n\nstay\n\n\nend\n", STAY + "\n":
                    text = TWO.replace(
                        f"rule nasch {QUARTER}\n", f"rule own\nmotion\n{motion}{STOP}{after}end\n{change}"
                    )
                    if "fault line" in explain(text):
                        self.assertRaisesRegex(RejectedInputError, "^fault line ", Job.from_text, text)
                    else:
                        self.assertEqual(Job.from_text(text).text(), text)
        both = TWO.replace(f"rule nasch {QUARTER}\n", f"rule own\n{GO}\nchange\nstay\nend\n")
        self.assertEqual(Job.from_text(both).rule, Own(GO, "change\nstay\n"))

    def test_keys_keep_their_form(self) -> None:
        for digits, key in (63 * "0" + "7", 7), (64 * "f", 2**256 - 1), (64 * "F", 64 * "F"), (32 * "aB", 32 * "aB"):
            for kind, text in KINDS:
                input = kind.from_text(text.replace(64 * "0", digits))
                self.assertEqual(input.key, key)
                self.assertEqual(input.text(), text.replace(64 * "0", digits))

    def test_files_are_read_by_their_paths(self) -> None:
        with tempfile.TemporaryDirectory() as folder:
            path = Path(folder) / "a.job"
            path.write_bytes(JOB.encode())
            self.assertEqual(Job.read(path), Job.read(str(path)))
            path.write_bytes(JOB.encode()[:-1] + b"\xff\n")
            self.assertRaisesRegex(ParameterError, "not in UTF-8", Job.read, path)
            path.write_bytes(JOB.replace("\n", "\r\n").encode())
            self.assertRaisesRegex(RejectedInputError, "^fault line ", Job.read, path)
            self.assertRaises(FileNotFoundError, Job.read, Path(folder) / "b.job")
        for kind, text in KINDS:
            self.assertRaisesRegex(ParameterError, f"{kind.__name__}.from_text", kind.read, text)


class Rejected(unittest.TestCase):
    def test_a_rejected_file_is_explained(self) -> None:
        late_rule = JOB + "at 9 rule nasch 0\n"
        for text, line in (JOB.replace("limit 5", "limit 2"), 4), (late_rule, 7), (SWEEP, 1), ("", 1), ("road 1\n", 2):
            with self.assertRaises(RejectedInputError) as caught:
                Job.from_text(text)
            self.assertEqual(caught.exception.line, line)
            self.assertEqual(caught.exception.explanation, explain_as("run", text))
        with self.assertRaises(RejectedInputError) as caught:
            Sweep.from_text(SWEEP + "cars 10\n")
        self.assertEqual(caught.exception.line, 11)
        self.assertEqual(caught.exception.explanation, explain_as("sweep", SWEEP + "cars 10\n"))

    def test_an_input_is_a_string(self) -> None:
        for call in Job.from_text, Sweep.from_text, explain, check:
            for value in JOB.encode(), None, 5:
                self.assertRaisesRegex(ParameterError, "text, not ", call, value)

    def test_a_missing_line_feed_is_reported(self) -> None:
        self.assertRaisesRegex(ParameterError, "does not end with a line feed", Job.from_text, JOB[:-1])
        self.assertRaisesRegex(ParameterError, "does not end with a line feed", Sweep.from_text, SWEEP[:-1])


def explain_as(command: str, text: str) -> str:
    """The explanation of a rejected input by `trlab explain`, for the command that reads it."""
    from trlab._runs.calls import explained

    return explained(text, command).stdout.rstrip("\n")


try:
    from hypothesis import given, settings, strategies as st
except ImportError:
    pass
else:
    PARTS = st.integers(0, 2**31).map(lambda numerator: Fraction(numerator, 2**31))
    SHARES = st.one_of(PARTS, st.floats(1e-9, 1 - 1e-9), st.sampled_from(["1/3", "0.1", 0, 1]))
    MOTIONS = st.sampled_from(["motion\n" + STOP, STOP, "\n\n" + STOP[:-1], STOP + "\n\n", "; a note\n" + STOP, GO])
    CHANGES = st.sampled_from([None, "change\nstay\n", "stay", "stay\n\n", STAY])
    KEYS = st.one_of(st.integers(0, 2**256 - 1), st.integers(0, 2**256 - 1).map(lambda number: f"{number:064X}"))

    def rules(lanes: int) -> st.SearchStrategy[Rule]:
        """Rules for a road with this number of lanes."""
        own = st.builds(Own, MOTIONS, CHANGES if lanes == 2 else st.none())
        plain: list[st.SearchStrategy[Rule]] = [st.builds(Nasch, SHARES), st.builds(SlowToStart, SHARES, SHARES), own]
        return st.one_of(*plain, *([st.builds(Rickert, SHARES, SHARES)] if lanes == 2 else []))

    @st.composite
    def jobs(draw: "st.DrawFn") -> Job:
        lanes, length = draw(st.integers(1, 2)), draw(st.integers(1, 30))
        limit, steps = draw(st.integers(1, 35)), draw(st.integers(0, 500000))
        signs = "." * 9 + "0123456789abcdefghijklmnopqrstuvwxyz"[: limit + 1]
        start = draw(st.lists(st.text(signs, min_size=length, max_size=length), min_size=lanes, max_size=lanes))
        at: dict[int, Rule] = draw(st.dictionaries(st.integers(0, steps - 1), rules(lanes), max_size=4)) if steps else {}
        return Job(limit=limit, start=start, rule=draw(rules(lanes)), steps=steps, key=draw(KEYS), at=at)

    @st.composite
    def sweeps(draw: "st.DrawFn") -> Sweep:
        lanes, length = draw(st.integers(1, 2)), draw(st.integers(1, 100))
        cars = draw(st.lists(st.integers(0, lanes * length), min_size=1, max_size=30))
        warm, measure = draw(st.integers(0, 9999)), draw(st.integers(1, 6666))
        shape: dict[str, Any] = {"limit": draw(st.integers(1, 35)), "length": length, "lanes": lanes}
        return Sweep(rule=draw(rules(lanes)), warm=warm, measure=measure, cars=cars, key=draw(KEYS), **shape)

    class Random(unittest.TestCase):
        def again(self, input: Input) -> None:
            """The input that is read from the file of an input has the same file."""
            read_again = type(input).from_text(input.text())
            self.assertEqual(read_again.text(), input.text())
            self.assertEqual(hash(read_again), hash(replace(read_again)))
            self.assertEqual(type(read_again).from_text(read_again.text()), read_again)

        @settings(deadline=None, database=None, derandomize=True, max_examples=150)
        @given(jobs())
        def test_random_jobs_are_read_again(self, job: Job) -> None:
            self.again(job)

        @settings(deadline=None, database=None, derandomize=True, max_examples=100)
        @given(sweeps())
        def test_random_sweeps_are_read_again(self, sweep: Sweep) -> None:
            self.again(sweep)


if __name__ == "__main__":
    unittest.main()
