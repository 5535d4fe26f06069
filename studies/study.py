"""Shared by the studies: inputs and tables as files, runs side by side, frames of their results, means and figures."""
from __future__ import annotations

import argparse
import csv
import shutil
from collections.abc import Callable, Iterable, Mapping, Sequence
from hashlib import sha256
from pathlib import Path
from typing import Any, NamedTuple, TypeVar, Union

import matplotlib.pyplot as plt
import numpy
import pandas

import trlab
from trlab import Grid, Job, Point, Sweep, Table, Window

Input = TypeVar("Input", Job, Sweep)
Row = TypeVar("Row", Point, Window)
Result = TypeVar("Result")

plt.style.use(Path(__file__).with_name("figures.mplstyle"))


class Study(NamedTuple):
    """The folder of a study, and the options of its script."""

    folder: Path
    is_full: bool
    is_drawn_only: bool

    @classmethod
    def by_words(cls, script: str, about: str) -> Study:
        """The study of a script, with the options of its command line."""
        parser = argparse.ArgumentParser(description=about.split("\n")[0])
        parser.add_argument("--full", action="store_true", help="the long run, which writes into its folder full/")
        parser.add_argument("--draw", action="store_true", help="runs nothing, takes the tables that are there")
        options = parser.parse_args()
        here = Path(script).resolve().parent
        return cls(here / "full" if options.full else here, options.full, options.draw)

    def frame(
        self, file: str, kind: type[Row], inputs: Mapping[str, Input], call: Callable[[Input], Iterable[Row]]
    ) -> pandas.DataFrame:
        """A frame of the rows of a table: as its file has them, or after all inputs were run. See `frame_of`.

        A run that was stopped or killed continues from its last result when it is started again."""
        if not self.is_drawn_only:
            self.write_inputs(inputs)
            write_rows(self.folder / file, heading_of(kind), named_rows(self.results(inputs, call), inputs))
        return frame_of(inputs, read_tables(self.folder / file, kind))

    def results(self, inputs: Mapping[str, Input], call: Callable[[Input], Result]) -> dict[str, Result]:
        """The results of a call by the names of the inputs.

        The program's outputs are kept in `outputs.parts` until the study is complete (`save`). The name of each is the
        digest of the call of the program, the input and the program, so that a changed study never gets an old output."""
        return dict(trlab.results(inputs, call=call, cache=self.parts, progress=True))

    @property
    def parts(self) -> Path:
        """The folder that keeps the outputs of the program as long as the study is not complete."""
        return self.folder / "outputs.parts"

    def write_inputs(self, inputs: Mapping[str, Union[Job, Sweep]]) -> None:
        """Writes inputs next to the tables, a sweep of several as NAME.sweep, NAME_1.sweep and so on; of jobs that differ
        in their key only those of key 1."""
        place = self.folder / "texts"
        place.mkdir(parents=True, exist_ok=True)
        for name, input in inputs.items():
            if isinstance(input, Sweep):
                for number, part in enumerate(input.parts()):
                    file = f"{name}_{number}.sweep" if number else f"{name}.sweep"
                    (place / file).write_text(part.text())
            elif input.key == 1:
                (place / f"{name}.job").write_text(input.text())

    def write_means(self, heading: str, rows: Iterable[Sequence[object]], name: str = "means.csv") -> None:
        """Writes a table of means for readers. The page of the study shows some of its rows."""
        write_rows(self.folder / name, heading.split(), rows)

    def save(self, axes: Any, name: str = "figure.svg") -> None:
        """Saves the figure of these axes, with the digest of the tables that it shows, and without date and version, so that
        the same tables give the same bytes. The outputs that the tables were made of are no longer needed."""
        about = {"Date": None, "Creator": None, "Source": f"tables {digest_of_tables(self.folder)}"}
        axes.figure.savefig(self.folder / name, metadata=about)
        plt.close(axes.figure)
        shutil.rmtree(self.parts, ignore_errors=True)


def heading_of(kind: Any) -> list[str]:
    """The columns of a table of such rows in its file, which has flows in millionths and calls their column flow."""
    return ["text", *(name.replace("_millionths", "") for name in kind._fields)]


def named_rows(tables: Mapping[str, Iterable[Iterable[object]]], names: Iterable[str]) -> list[list[object]]:
    """The rows of all tables, each after the name of its table."""
    return [[name, *row] for name in names for row in tables[name]]


def digest_of_tables(folder: Path) -> str:
    """The SHA-256 of all tables of a study, by rising names, without the means that follow from them."""
    tables = [file for file in sorted(folder.glob("*.csv")) if not file.name.endswith("means.csv")]
    return sha256(b"".join(file.read_bytes() for file in tables)).hexdigest()


def write_rows(file: Path, heading: Sequence[str], rows: Iterable[Sequence[object]]) -> None:
    """Writes a table, which is moved into its place as a whole."""
    file.parent.mkdir(parents=True, exist_ok=True)
    new = file.with_name(f"{file.name}.parts")
    with open(new, "w", newline="") as out:
        table = csv.writer(out, lineterminator="\n")
        table.writerow(heading)
        table.writerows(rows)
    new.replace(file)


def read_rows(file: Path) -> list[list[str]]:
    """The lines of a table, without its heading."""
    with open(file, newline="") as lines:
        return list(csv.reader(lines))[1:]


def read_tables(file: Path, kind: type[Row]) -> dict[str, Table[Row]]:
    """The tables in a file, by the names of their inputs."""
    found: dict[str, list[Row]] = {}
    for name, *numbers in read_rows(file):
        found.setdefault(name, []).append(kind(*(int(number) for number in numbers)))
    return {name: Table(kind, rows) for name, rows in found.items()}


def frame_of(inputs: Mapping[str, Input], tables: Mapping[str, Table[Any]]) -> pandas.DataFrame:
    """The frame of `Grid.run` for such inputs and their tables: a row for each road, with the name of its `input`."""

    def made(input: Union[Job, Sweep], key: int) -> Union[Job, Sweep]:
        """The input of a choice, which has its own key."""
        return input

    grid = Grid(made, input=inputs)
    return grid.frame(dict(zip(grid.named_inputs(), (tables[name] for name in inputs)))).reset_index()


def means(frame: pandas.DataFrame, *parameters: str, of: Sequence[str] = ("flow",), drawn: bool = False) -> pandas.DataFrame:
    """The means over all roads with the same parameters, and their standard errors, by rising parameters. `drawn` confirms that
    roads that are given cell by cell were drawn at random."""
    return trlab.means(frame.set_index([*parameters, "input"]), over=["input", "road"], of=of, drawn=drawn).sort_index()


def difference(ones: pandas.DataFrame, others: pandas.DataFrame, of: str = "flow") -> pandas.DataFrame:
    """By how much the means of independent runs are above others: `value`, its standard error `sem`, and `z` = value / sem,
    which is NaN if both are exact."""
    value = ones[of] - others[of]
    sem = numpy.hypot(ones[f"{of}_sem"], others[f"{of}_sem"])
    return pandas.DataFrame({"value": value, "sem": sem, "z": value / sem.where(sem > 0)})


def draw_z(study: Study, found: Mapping[str, pandas.Series], title: str, *, top: float) -> None:
    """Draws differences in standard errors against density, with the band in which 95 of 100 would be by chance if errors
    were known exactly."""
    _, axes = plt.subplots()
    axes.axhspan(-2, 2, color="0.92", zorder=0)
    axes.axhline(0, color="0.6", linewidth=1, zorder=1)
    for (name, z), marker in zip(found.items(), "o^sDvP"):
        axes.plot(z.index, z, marker, fillstyle="none", label=name)
    axes.set(xlim=(0, top), xlabel="density (cars per cell)", ylabel="even minus random, in standard errors", title=title)
    axes.legend()
    study.save(axes, "bias.svg")


def signed(z: float) -> str:
    """A number of standard errors as pages show it; nothing if there is none."""
    return "" if numpy.isnan(z) else f"{z:+.1f}"


def with_error(mean: float, sem: float, places: int = 6) -> str:
    """A mean with its standard error in brackets, in units of the last digit: 0.2406(26). It has at most `places` decimal
    places, and fewer if the error would have more than two digits."""
    while places and round(sem * 10**places) >= 100:
        places -= 1
    return f"{mean:.{places}f}({round(sem * 10**places)})"


def page_row(cells: Iterable[object]) -> str:
    """A row of a table of a page."""
    return "|" + "".join(f" {cell} |" if cell != "" else " |" for cell in cells)


def largest(found: pandas.DataFrame, digits: str = "", of: str = "flow") -> str:
    """The largest of means by density, with its standard error and density."""
    density = found[of].idxmax()
    return f"{found[of][density]:.5f} +- {found[f'{of}_sem'][density]:.5f} at density {density:{digits}}"
