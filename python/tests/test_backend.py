"""The build backend reads pyproject.toml with tomllib and with its own strict reader, in any order of the tables."""
import shutil
import subprocess
import sys
import tempfile
import unittest
from pathlib import Path

from backend import pyproject

TOP = Path(__file__).resolve().parents[2]
TEXT = (TOP / "pyproject.toml").read_text(encoding="utf-8")
# Without tomllib the backend uses its strict reader.
SCRIPT = "import sys; sys.modules.update(dict.fromkeys(sys.argv[1:])); import wheel; print(wheel.information('any'))"
EXTRAS = "[project.optional-dependencies]"
SEVERAL_LINES = '# "a"\n[a.b]\nc = [ # "d"\n  "e#", # "f"]\n\n  "]",\n]\n[a]\nd = []\n[[f.g]]\nh = false\n[[f.g]]'
UNKNOWN = {
    "an escape": r'a = "\n"', "a literal string": "a = 'b'", "a string over several lines": 'a = """b"""',
    "a number": "a = 1",
    "a dotted key": 'a.b = "c"', "a quoted key": '"a" = "b"', "a table in a line": 'a = { b = "c" }',
    "a list in a list": 'a = [["b"]]',
    "no comma": 'a = ["b" "c"]', "an open list": 'a = ["b",', "an open header": "[a\n]", "no value": "a =",
    "two values": 'a = "b" "c"',
    "a key twice": 'a = "b"\na = "c"', "a table twice": "[a]\n[a]", "a list of tables after a table": "[a]\n[[a]]",
    "a table after a list of tables": "[[a]]\n[a]", "tables added to a list": 'a = ["b"]\n[[a]]',
    "a table in a string": 'a = "b"\n[a.c]',
}


def information(text: str, *hidden: str) -> str:
    """The files that describe the package, by a backend with this pyproject.toml, without some modules."""
    with tempfile.TemporaryDirectory() as folder:
        top = Path(folder)
        backend, module = top / "python" / "backend", top / "python" / "trlab"
        module.mkdir(parents=True)
        shutil.copytree(TOP / "python" / "backend", backend, ignore=shutil.ignore_patterns("__pycache__"))
        shutil.copy(TOP / "python" / "trlab" / "_version.py", module)
        (top / "pyproject.toml").write_text(text, encoding="utf-8")
        process = subprocess.run(
            [sys.executable, "-B", "-c", SCRIPT, *hidden], cwd=backend, capture_output=True, text=True
        )
    return process.stdout or process.stderr


class Backend(unittest.TestCase):
    @unittest.skipUnless(pyproject.tomllib, "Python has no tomllib before 3.11")
    def test_both_readers_give_the_same(self) -> None:
        assert pyproject.tomllib is not None
        for text in TEXT, SEVERAL_LINES:
            self.assertEqual(pyproject.read_strictly(text), pyproject.tomllib.loads(text))

    def test_a_list_over_several_lines(self) -> None:
        expected = {"a": {"b": {"c": ["e#", "]"]}, "d": []}, "f": {"g": [{"h": False}, {}]}}
        self.assertEqual(pyproject.read_strictly(SEVERAL_LINES), expected)

    def test_the_strict_reader_rejects_other_forms_with_the_line(self) -> None:
        for form, text in UNKNOWN.items():
            with self.subTest(form):
                line = 2 + text.count("\n") * text.startswith(('a = "b"\n', 'a = ["b"]\n', "[a]\n", "[[a]]\n"))
                self.assertRaisesRegex(ValueError, f"line {line}: ", pyproject.read_strictly, f"# comment\n{text}")

    def test_the_order_of_the_tables_changes_nothing(self) -> None:
        start, rest = TEXT.split(EXTRAS)
        extras, rest = rest.split("\n\n", 1)
        build, table = start.split("[project]")
        last = f"{build}[project]{table}{rest}\n{EXTRAS}{extras}"
        first = f"{EXTRAS}{extras}\n\n{rest}\n[project]{table}{build}"
        expected = information(TEXT)
        self.assertIn("Provides-Extra: analysis", expected)
        for text in TEXT, last, first:
            for hidden in (), ("tomllib",):
                self.assertEqual(information(text, *hidden), expected)


if __name__ == "__main__":
    unittest.main()
