"""Without numpy, pandas and matplotlib: inputs, runs and rows work, and the analysis names the missing library."""
import os
import subprocess
import sys
import unittest
from pathlib import Path

from trlab import find_program

SCRIPT = """
import sys
import trlab
from trlab import Grid, Job, Nasch, Snapshots, Sweep

class Hidden:
    def find_spec(self, name, path=None, target=None):
        if name.split(".")[0] in MISSING:
            raise ModuleNotFoundError(f"No module named {name!r}", name=name)

sys.meta_path.insert(0, Hidden())
job = Job(limit=5, length=20, cars=4, rule=Nasch(0.25), steps=20)
grid = Grid(lambda seed, key: Job(limit=5, length=20, cars=4, rule=Nasch(0.25), steps=20, key=key), seed=[0, 1])
table = job.series(every=10)
assert [row.flow for row in table] and grid.named_inputs()
assert len(dict(grid.results(call=lambda job: job.series()))) == 2
ran = []
calls = {
    "Grid.run": lambda: grid.run(call=lambda job: ran.append(1) or 1), "to_pandas": table.to_pandas,
    "Grid.frame": lambda: grid.frame({}), "plot_space_time": lambda: trlab.plot_space_time(job.run()),
}
names = "means", "per_run", "peak", "lifetime", "plot_means", "to_si"
calls.update((name, lambda name=name: getattr(trlab, name)) for name in names)
for name, call in calls.items():
    try:
        call()
        message = "nothing"
    except trlab.MissingLibraryError as error:
        assert isinstance(error, ImportError) and isinstance(error, trlab.TrlabError)
        message = str(error)
    print(name, message, sep=": ")
assert not ran or "numpy" not in MISSING and "pandas" not in MISSING
"""


def messages_without(*missing: str) -> dict[str, str]:
    """The message of each call if these libraries are missing, in a Python that may have them or not."""
    script = f"MISSING = {missing!r}\n{SCRIPT}"
    environment = {
        **os.environ, "PYTHONPATH": str(Path(__file__).parents[1]), "TRLAB": find_program(), "MPLBACKEND": "Agg"
    }
    process = subprocess.run([sys.executable, "-B", "-c", script], capture_output=True, text=True, env=environment)
    assert not process.returncode, process.stderr
    return dict(line.split(": ", 1) for line in process.stdout.splitlines())


class Libraries(unittest.TestCase):
    def test_the_libraries_to_install_are_named(self) -> None:
        for missing in ("numpy", "pandas", "matplotlib"), ("pandas",):
            messages = messages_without(*missing)
            self.assertEqual(len(messages), 10)
            for name, printed in messages.items():
                message = "this needs (numpy|pandas), which is not installed: pip install numpy pandas matplotlib"
                self.assertRegex(printed, f"^{message}$", name)

    def test_only_plots_need_matplotlib(self) -> None:
        try:
            import pandas  # noqa: F401
        except ModuleNotFoundError:
            self.skipTest("pandas is not installed")
        messages = messages_without("matplotlib")
        self.assertEqual([name for name, message in messages.items() if message != "nothing"], ["plot_space_time"])
        self.assertIn("this needs matplotlib", messages["plot_space_time"])


if __name__ == "__main__":
    unittest.main()
