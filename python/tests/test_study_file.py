"""Studies in one file: the same frame to the last bit, the same bytes, and an error for any other file."""
import hashlib
import io
import json
import os
import struct
import subprocess
import sys
import tempfile
import unittest
import zipfile
from collections.abc import Callable, Iterable
from fractions import Fraction
from pathlib import Path
from typing import Any, Union

import trlab
from tests.processes import PYTHON
from tests.skips import needs
from trlab import (
    Grid, Job, Nasch, ParameterError, StudyFileError, Sweep, Table, Window, find_program, moving, random_cells,
)
from trlab import Probability, read_study

WORDS = ["series", "--every", "15", "--from", "5"]


def job(p: Probability, seed: int, key: int) -> Job:
    return Job(limit=5, length=50, cars=9, rule=Nasch(p), start=random_cells(key), steps=35, key=key)


def series_of(job: Union[Job, Sweep]) -> Table[Window]:
    """The series that `WORDS` request."""
    assert isinstance(job, Job)
    return job.series(every=15, first=5)


def sweep_from(start: str) -> Callable[..., Sweep]:
    def sweep(p: Probability, seed: int, key: int) -> Sweep:
        cars = [number % 40 + 1 for number in range(250)] if start == "many" else [5, 10, 15]
        return Sweep(
            limit=5, length=50, rule=Nasch(p), warm=5, measure=10, cars=cars, key=key,
            start={"random": random_cells(key), "moving": moving}.get(start, trlab.even),
        )

    return sweep


SAVED: list[bytes] = []
PARAMETERS: dict[str, Iterable[object]] = {"p": [0.25, Fraction(1, 3), "1/2"], "seed": [0, 1]}


class Folder(unittest.TestCase):
    def setUp(self) -> None:
        folder = tempfile.TemporaryDirectory()
        self.addCleanup(folder.cleanup)
        self.path = Path(folder.name) / "study.trlab"

    def saved(self) -> bytes:
        """The bytes of a study, which is in the file then."""
        if not SAVED:
            Grid(job, **PARAMETERS).save(self.path, WORDS)
            SAVED.append(self.path.read_bytes())
        self.path.write_bytes(SAVED[0])
        return SAVED[0]


class Studies(Folder):
    @needs("pandas")
    def test_the_frame_is_the_same_to_the_last_bit(self) -> None:
        from pandas.testing import assert_frame_equal

        grids = {name: Grid(sweep_from(name), **PARAMETERS) for name in ("even", "random", "moving", "many")}
        for name, grid in {**grids, "jobs": Grid(job, **PARAMETERS)}.items():
            with self.subTest(name):
                grid.save(self.path, WORDS if name == "jobs" else [])
                expected = grid.run(call=series_of if name == "jobs" else None)
                frame = read_study(self.path).run()
                assert_frame_equal(frame, expected, check_exact=True, check_flags=True)
                self.assertEqual(frame.attrs, expected.attrs)

    @needs("pandas")
    def test_options_are_those_of_results(self) -> None:
        self.saved()
        with tempfile.TemporaryDirectory() as cache:
            frames = [read_study(self.path).run(cache=cache, at_once=2) for _ in range(2)]
            self.assertEqual(len(os.listdir(cache)), 6)
        self.assertTrue(frames[0].equals(frames[1]))
        self.assertRaisesRegex(ParameterError, "leave out `call`", read_study(self.path).run, call=Job.series)

    def test_tables_need_no_package(self) -> None:
        self.saved()
        script = "import sys\nfor name in 'numpy', 'pandas':\n    sys.modules[name] = None\n" \
            "import trlab\nfor place, table in trlab.read_study(sys.argv[1]).results():\n    print(place.p, len(table))"
        environment = {**os.environ, "PYTHONPATH": str(PYTHON)}
        command = [sys.executable, "-B", "-c", script, str(self.path)]
        process = subprocess.run(command, env=environment, stdout=subprocess.PIPE, text=True)
        self.assertEqual(
            sorted(process.stdout.splitlines()), sorted(f"{p} 2" for p in ("0.25", "1/3", "1/2") for _ in range(2))
        )

    def test_the_contents_of_a_study(self) -> None:
        grid = Grid(job, **PARAMETERS)
        self.saved()
        study = read_study(self.path)
        self.assertEqual(study.names, ("p", "seed"))
        self.assertEqual(list(study.inputs), list(grid.inputs))
        self.assertEqual([type(place.p) for place in study.inputs], [float, float, Fraction, Fraction, str, str])
        for place, input in study.inputs.items():
            self.assertEqual(input.words, tuple(WORDS))
            self.assertEqual(input.texts, (grid.inputs[place].text(),))
        self.assertEqual(
            dict(study.results()), {place: series_of(job) for place, job in grid.inputs.items()}
        )
        program = hashlib.sha256(Path(find_program()).read_bytes()).hexdigest()
        self.assertEqual(study.version, trlab.__version__)
        self.assertEqual(study.program, program)

    def test_the_same_study_is_the_same_bytes(self) -> None:
        content = self.saved()
        Grid(job, **PARAMETERS).save(self.path, WORDS)
        self.assertEqual(self.path.read_bytes(), content)
        self.assertEqual([file.name for file in self.path.parent.iterdir()], [self.path.name])
        # Nothing is compressed, because not all libraries compress alike.
        for input in Grid(job, **PARAMETERS).inputs.values():
            self.assertIn(input.text().encode(), content)

    def test_anyone_can_run_a_line_of_a_study(self) -> None:
        self.saved()
        with zipfile.ZipFile(self.path) as file:
            about = json.loads(file.read("study.json"))
            choice = about["choices"][3]
            text = file.read(*choice["files"])
        process = subprocess.run([find_program(), *choice["words"]], input=text, stdout=subprocess.PIPE, check=True)
        self.assertEqual(
            Table.read(Window, process.stdout),
            series_of(Grid(job, **PARAMETERS).inputs[(Fraction(1, 3), 1)]),
        )

    def test_results_that_cannot_be_saved(self) -> None:
        grid = Grid(job, **PARAMETERS)
        for words in [], ["run"], ["sweep"], ["series", "--every", "16"], ["series; id"]:
            self.assertRaisesRegex(
                ParameterError, "say what to measure|are not whole windows", grid.save, self.path, words
            )
        self.assertRaisesRegex(
            ParameterError, "leave out `words`", Grid(sweep_from("even"), **PARAMETERS).save, self.path, WORDS
        )
        self.assertFalse(self.path.exists())

    def read_with(self, first_line: str) -> tuple[str, str]:
        """The error of `read_study` with another program, and the number of results with `any_program`. The program is
        a script that begins with this line."""
        other = self.path.parent / "other"
        other.write_text(f'#!/bin/sh\n{first_line}\nexec "{find_program()}" "$@"\n')
        other.chmod(0o755)
        script = "import sys, trlab\ntry:\n    trlab.read_study(sys.argv[1])\n" \
            "except trlab.StudyFileError as error:\n    print(error)\n" \
            "print(len(dict(trlab.read_study(sys.argv[1], any_program=True).results())))"
        environment = {**os.environ, "PYTHONPATH": str(PYTHON), "TRLAB": str(other)}
        command = [sys.executable, "-B", "-c", script, str(self.path)]
        process = subprocess.run(command, env=environment, stdout=subprocess.PIPE, text=True)
        message, count = process.stdout.splitlines()
        return message, count

    def test_another_program(self) -> None:
        self.saved()
        message, count = self.read_with('[ "$1" != --version ] || exec echo trlab 9')
        self.assertRegex(
            message, "was made with trlab .*, program [0-9a-f]{12}, and yours is trlab 9, program .* any_program=True$"
        )
        self.assertEqual(count, "6")

    def test_another_build_of_the_version(self) -> None:
        self.saved()
        message, count = self.read_with("# the same version")
        self.assertRegex(message, "was made with another build of trlab .* kind of processor .* any_program=True$")
        self.assertEqual(count, "6")


class OtherFiles(Folder):
    """Damaged, foreign and hostile files."""

    def reject(self, content: bytes, message: str = ".") -> None:
        self.path.write_bytes(content)
        with self.assertRaises(StudyFileError) as caught:
            read_study(self.path)
        self.assertRegex(str(caught.exception), message)

    def rewritten(
        self, change: Callable[[Any], object] = lambda about: None,
        members: Callable[[dict[str, bytes]], object] = lambda texts: None,
        compression: int = zipfile.ZIP_STORED,
    ) -> bytes:
        """The bytes of a study whose study.json or members were changed."""
        with zipfile.ZipFile(io.BytesIO(self.saved())) as file:
            texts = {name: file.read(name) for name in file.namelist()}
        about = json.loads(texts["study.json"])
        about = change(about) or about
        texts["study.json"] = json.dumps(about).encode()
        members(texts)
        archive = io.BytesIO()
        with zipfile.ZipFile(archive, "w", compression) as file:
            for name, text in texts.items():
                file.writestr(name, text)
        return archive.getvalue()

    def test_a_changed_study_is_a_study(self) -> None:
        """The helper of these tests makes valid studies, so that each rejection below has its own reason."""
        self.path.write_bytes(self.rewritten())
        self.assertEqual(len(read_study(self.path).inputs), 6)

    def test_every_cut_and_changed_byte(self) -> None:
        content = self.saved()
        for length in range(0, len(content), 97):
            with self.subTest(length=length):
                self.reject(content[:length])
        middle = content.index(b"lane ") + 20
        self.reject(content[:middle] + bytes([content[middle] ^ 1]) + content[middle + 1:], "CRC")
        self.reject(b"no archive")
        self.reject(b"")

    def test_paths_that_are_not_files(self) -> None:
        self.assertRaises(FileNotFoundError, read_study, self.path)
        self.assertRaisesRegex(StudyFileError, "is not a file", read_study, self.path.parent)
        os.mkfifo(self.path)
        self.assertRaisesRegex(StudyFileError, "is not a file", read_study, self.path)

    def test_members_of_study_json(self) -> None:
        """Each member is missing once, and has each of these values once."""
        sixty_four_digits = int(64 * "1")
        values: list[object] = [None, True, 1, "x", [], {}, [1], [None], [True], 1.5, sixty_four_digits]
        for name in "format", "trlab", "program", "program_version", "parameters", "choices":
            self.reject(self.rewritten(lambda about: about.pop(name) and None))
            for value in values:
                if (name, value) not in (("trlab", "x"), ("program_version", "x")):
                    with self.subTest(name=name, value=value):
                        self.reject(self.rewritten(lambda about: about.update({name: value})))
        for name in "values", "roads", "words", "files", "is_sweep":
            self.reject(self.rewritten(lambda about: about["choices"][0].pop(name) and None))
            for value in values:
                if (name, value) != ("is_sweep", True):
                    with self.subTest(name=name, value=value):
                        self.reject(self.rewritten(lambda about: about["choices"][0].update({name: value})))
        self.reject(self.rewritten(lambda about: about["choices"][0]["roads"].update({"key": sixty_four_digits})))
        for name in "key", "cells", "cars", "ensembles":
            for value in None, True, "x", [], {}, [None], [True], 1.5:
                with self.subTest(name=name, value=value):
                    self.reject(self.rewritten(lambda about: about["choices"][0]["roads"].update({name: value})))

    def test_parameters_that_no_study_has(self) -> None:
        for names in ["p"], ["p", "p"], ["p", "class"], ["p", "_x"], ["p", "import os"], ["p", "q", "seed"]:
            self.reject(self.rewritten(lambda about: about.update(parameters=names)))
        fractions: list[object] = [{"fraction": "1/0"}, {"fraction": 1}, {"fraction": "x"}, {"a": "1"}]
        for value in [None, True, [], {}, *fractions, float("inf"), float("nan")]:
            with self.subTest(value=value):
                self.reject(self.rewritten(lambda about: about["choices"][0].update(values=[value, 0])))

    def test_words_that_give_no_table(self) -> None:
        """Only tables, and no steps that the windows leave out."""
        options = ["--every", "16"], ["--every", "x"], ["--from", "35"], ["; id"]
        for words in ["run"], ["check"], ["sweep"], ["--version"], *(["series", *option] for option in options):
            self.reject(self.rewritten(lambda about: about["choices"][0].update(words=words)))

    def test_choices_that_contradict_each_other(self) -> None:
        changes: list[Callable[[list[dict[str, Any]]], object]] = [
            lambda choices: choices.pop(), lambda choices: choices.clear(), lambda choices: choices.append(choices[0]),
            lambda choices: choices[0].update(choices[1]),
            lambda choices: choices[0].update(values=choices[1]["values"]),
        ]
        for change in changes:
            self.reject(self.rewritten(lambda about: change(about["choices"]) and None))
        for name in "../../etc/passwd", "/etc/passwd", "study.json":
            self.reject(self.rewritten(lambda about: about["choices"][0].update(files=[name])))

    def test_other_json(self) -> None:
        for change in lambda about: [about], lambda about: 1, lambda about: {"format": about["format"]}:
            self.reject(self.rewritten(change))
        for text in b"[" * 10**6, b'{"a": ' + b"9" * 10**5 + b"}", b"\xff", b"":
            self.reject(self.rewritten(members=lambda texts: texts.update({"study.json": text})))
        self.reject(self.rewritten(members=lambda texts: texts.pop("study.json") and None))
        self.reject(self.rewritten(lambda about: about.update(format="trlab study 2")), "another version")

    def test_members_of_the_archive(self) -> None:
        first = "inputs/000000.job"
        for change in (
            lambda texts: texts.pop(first) and None, lambda texts: texts.update({"more": b""}),
            lambda texts: texts.update({"../evil": b""}),
            lambda texts: texts.update({"/evil": b""}), lambda texts: texts.update({first: b"\xff\xfe"}),
            lambda texts: texts.update({first: b"0" * (4 * 1024 * 1024 + 1)}), lambda texts: texts.update({first: b""}),
        ):
            self.reject(self.rewritten(members=change))

    def test_names_that_lead_elsewhere(self) -> None:
        name = "inputs/../../evil.job"
        content = self.rewritten(
            lambda about: about["choices"][0].update(files=[name]),
            lambda texts: texts.update({name: texts.pop("inputs/000000.job")}),
        )
        self.reject(content, "another name")

    def test_huge_members(self) -> None:
        self.reject(self.rewritten(compression=zipfile.ZIP_DEFLATED), "compressed")
        # All entries of the directory are of one long member.
        content = self.saved()
        begin = content.index(b"PK\1\2")
        entry = bytearray(content[begin:content.index(b"PK\1\2", begin + 4)])
        entries, end = bytes(entry) * 60000, content[content.rindex(b"PK\5\6"):]
        tail = end[:8] + struct.pack("<HHII", 60000, 60000, len(entries), begin) + end[20:]
        self.reject(content[:begin] + entries + tail)

    def test_two_members_of_one_name(self) -> None:
        self.path.write_bytes(self.saved())
        with zipfile.ZipFile(self.path, "a") as file, self.assertWarns(UserWarning):
            file.writestr("inputs/000000.job", "")
        self.reject(self.path.read_bytes(), "two members")

    def test_locked_members(self) -> None:
        content = bytearray(self.saved())
        place = content.index(b"PK\1\2")
        while place >= 0:
            content[place + 8] |= 1
            place = content.find(b"PK\1\2", place + 4)
        self.reject(bytes(content))


if __name__ == "__main__":
    unittest.main()
