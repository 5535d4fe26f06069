"""One file for a study: its inputs as trlab reads them, the measurement, and the program."""
from __future__ import annotations

import json
import math
import os
import re
import zipfile
import zlib
from collections import namedtuple
from collections.abc import Iterator, Mapping, Sequence
from fractions import Fraction
from numbers import Integral, Rational, Real
from pathlib import Path
from typing import TYPE_CHECKING, Any, NamedTuple, NoReturn, Union

from .._errors import ParameterError, StudyFileError
from .._inputs.sweeps import Sweep
from .._results.tables import Point, Table, Window
from .._runs.cache import program_identity
from .._runs.calls import ask
from .._runs.many import results as results_of
from .._runs.ownership import new_path, owned
from .._runs.parts import joined, kind_of, need_whole_windows, requests_of
from .._runs.requests import Request
from .._version import __version__

if TYPE_CHECKING:
    import pandas

_FORMAT = "trlab study 1"
_MAX_BYTES = 4 * 1024 * 1024
"""The maximum size of an input, which is also that of trlab."""
# The name of an input in a study; the parts of an input have numbers.
_FILE = re.compile(r"inputs/[0-9]{6}(?:~[0-9]{4})?\.(?:job|sweep)")
_WORD = re.compile("[a-zA-Z0-9=-]+")
_TIME = (1980, 1, 1, 0, 0, 0)
"""The time of all members, so that the same study gives the same file: the earliest that a zip archive can have."""

_UNIX, _READABLE = 3, 0o644 << 16
"""The system of all members, and their permissions: a file that everybody may read."""

_DAMAGED = (
    zipfile.BadZipFile, zlib.error, ArithmeticError, EOFError, LookupError, NotImplementedError, OSError, RuntimeError,
    TypeError, ValueError,
)


class StudyInput(NamedTuple):
    """The input of a choice: the texts that the program reads with these `words`, one or, for some sweeps, several."""

    words: tuple[str, ...]
    texts: tuple[str, ...]
    is_sweep: bool

    def table(self) -> Table[Any]:
        """Run the input: one row per point of a sweep, or per window of a series."""
        kind = kind_of(self.words)
        return joined(
            Point if self.is_sweep else Window, [Table.read(kind, ask(self.words, text)) for text in self.texts]
        )


class Study:
    """A study that `read_study` read. `names` has the names of the parameters, and `inputs` maps each choice, a named
    tuple of their values, to its input; `version` and `program`, its SHA-256, identify the program that wrote the
    study."""

    def __init__(self, about: Mapping[str, Any], inputs: Mapping[Any, StudyInput]) -> None:
        self.version: str = about["trlab"]
        self._program_version: str = about["program_version"]
        self.program: str = about["program"]
        self.names: tuple[str, ...] = tuple(about["parameters"])
        self.inputs: dict[Any, StudyInput] = dict(inputs)
        self._roads = dict(zip(inputs, (choice["roads"] for choice in about["choices"])))

    def __repr__(self) -> str:
        return f"<study of {len(self.inputs)} inputs by {', '.join(self.names)}>"

    def results(self, **options: Any) -> Iterator[tuple[Any, Table[Any]]]:
        """Yield each choice and its table, with the options of `trlab.results`. This needs no package."""
        if options.get("call") is not None:
            raise ParameterError("a study file sets the measurement: leave out `call`")
        all_options: dict[str, Any] = {**options, "call": StudyInput.table}
        tables: Iterator[tuple[Any, Table[Any]]] = results_of(self.inputs, **all_options)
        return tables

    def run(self, **options: Any) -> pandas.DataFrame:
        """Run the study, with the options of `trlab.results`. The frame is that of `Grid.run`, to the last bit."""
        from .._analysis.frames import tidy

        tables = dict(self.results(**options))
        in_order = {place: tables[place] for place in self.inputs}
        frame = tidy(in_order, self.names, self._roads, keep=options.get("errors") == "keep")
        frame.attrs["trlab"] = {"trlab": __version__, "program": program_identity().sha256, "parameters": list(self.names)}
        return frame


def save(grid: Any, path: Union[str, Path], words: Sequence[str]) -> None:
    """See `Grid.save`."""
    choices: list[dict[str, Any]] = []
    texts: dict[str, str] = {}
    for number, (place, input) in enumerate(grid.inputs.items()):
        is_sweep = isinstance(input, Sweep)
        requests = requests_of(input, ["sweep"] if is_sweep else list(words))
        if requests[0].arguments[0] == "run":
            raise ParameterError('a study has tables, so its words begin with "series"')
        ending = "sweep" if requests[0].arguments[0] == "sweep" else "job"
        parts = [f"~{part:04}" for part in range(len(requests))] if len(requests) > 1 else [""]
        names = [f"inputs/{number:06}{part}.{ending}" for part in parts]
        texts.update(zip(names, (request.text for request in requests)))
        choices.append({
            "values": [_written(value) for value in place], "roads": grid._runs[place],
            "words": list(requests[0].arguments), "files": names, "is_sweep": is_sweep,
        })
    program = program_identity()
    about = {
        "format": _FORMAT, "trlab": __version__, "program_version": program.version, "program": program.sha256,
        "parameters": list(grid.names), "choices": choices,
    }
    _write(Path(path).expanduser(), {**texts, "study.json": json.dumps(about, indent=1) + "\n"})


def _written(value: Any) -> Any:
    """A value of a parameter in JSON, from which the same value is read."""
    if isinstance(value, str):
        return str(value)
    if isinstance(value, Integral):
        return int(value)
    if isinstance(value, Rational):
        return {"fraction": f"{value.numerator}/{value.denominator}"}
    if isinstance(value, Real):
        return float(value)
    raise ParameterError(f"a study file cannot have the value {value!r}: give it a name")


def _write(path: Path, texts: Mapping[str, str]) -> None:
    """Writes a zip archive, always with the same bytes for the same texts: nothing is compressed, since libraries
    differ."""
    with owned(new_path(path.parent, "study")) as new:
        with zipfile.ZipFile(new, "x") as file:
            for name, text in sorted(texts.items()):
                member = zipfile.ZipInfo(name, _TIME)
                member.create_system, member.external_attr = _UNIX, _READABLE
                file.writestr(member, text.encode("utf-8"))
        os.replace(new, path)


def read_study(path: Union[str, Path], any_program: bool = False) -> Study:
    """Read a file that `Grid.save` wrote. Raises `StudyFileError` if the file is damaged, incomplete or something else,
    or if it was written with another program than yours, whose results may differ: `any_program=True` reads it
    anyway."""
    place = Path(path).expanduser()
    if place.exists() and not place.is_file():
        raise StudyFileError(f"{place} is not a file")
    try:
        with open(place, "rb") as content, zipfile.ZipFile(content) as file:
            study = _study_in(file, os.fstat(content.fileno()).st_size)
    except FileNotFoundError:
        raise
    except StudyFileError as error:
        raise StudyFileError(f"{place} is not a study of trlab, or damaged: {error}") from None
    except _DAMAGED as error:
        raise StudyFileError(f"{place} is not a study of trlab, or damaged: {type(error).__name__}: {error}") from None
    own = program_identity()
    if study.program == own.sha256 or any_program:
        return study
    if study._program_version == own.version:
        raise StudyFileError(
            f"{place} was made with another build of {own.version}, for example for another kind of processor "
            f"(program {study.program[:12]}, yours is {own.sha256[:12]}): if both are from the release, their results "
            "are the same, and you can pass any_program=True"
        )
    raise StudyFileError(
        f"{place} was made with trlab {study.version}, program {study.program[:12]}, and yours is {own.version}, "
        f"program {own.sha256[:12]}: install that version, or pass any_program=True"
    )


def _study_in(file: zipfile.ZipFile, size: int) -> Study:
    """The study in an archive of this number of bytes. Raises `StudyFileError`, or other errors if it is damaged."""
    _check_members(file, size)
    about = json.loads(file.read("study.json"), parse_constant=_no_number)
    _need(isinstance(about, dict), "study.json is not an object")
    _need(about.get("format") == _FORMAT, f"its format is not `{_FORMAT}`: it may be of another version")
    _check_about(about)
    _check_names(file, [name for choice in about["choices"] for name in choice["files"]])
    make: Any = namedtuple("Choice", about["parameters"])  # type: ignore[misc]
    inputs = {}
    for choice in about["choices"]:
        values = make(*map(_read_value, choice["values"]))
        texts = tuple(file.read(name).decode("utf-8") for name in choice["files"])
        inputs[values] = StudyInput(tuple(choice["words"]), texts, choice["is_sweep"])
    _need(len(inputs) == len(about["choices"]), "two choices have the same values")
    for input in inputs.values():
        for text in input.texts:
            need_whole_windows(Request(input.words, text))
    return Study(about, inputs)


def _check_members(file: zipfile.ZipFile, size: int) -> None:
    """Raises `StudyFileError` if members are compressed, longer than the archive, or of the same name."""
    members = file.infolist()
    _need(all(member.compress_type == zipfile.ZIP_STORED for member in members), "it is compressed")
    _need(sum(member.file_size for member in members) <= size, "its members are longer than the file")
    _need(len({member.filename for member in members}) == len(members), "it has two members of one name")


def _check_names(file: zipfile.ZipFile, inputs: Sequence[str]) -> None:
    """Raises `StudyFileError` if the members are not study.json and the inputs that it lists."""
    _need(sorted([*inputs, "study.json"]) == sorted(file.namelist()), "its members are not those that study.json lists")
    _need(all(_FILE.fullmatch(name) for name in inputs), "an input has another name")
    are_short = all(file.getinfo(name).file_size <= _MAX_BYTES for name in inputs)
    _need(are_short, f"an input has more than {_MAX_BYTES} bytes")


def _is_hash(value: Any) -> bool:
    """Whether a value is a string of 64 hexadecimal digits. (A number of 64 digits in JSON is none.)"""
    return isinstance(value, str) and re.fullmatch("[0-9a-f]{64}", value) is not None


def _check_about(about: Mapping[str, Any]) -> None:
    """Raises `StudyFileError` if study.json does not have the members that `save` writes."""
    _need(isinstance(about.get("trlab"), str) and isinstance(about.get("program_version"), str), "it has no version")
    _need(_is_hash(about.get("program")), "it has no SHA-256 of the program")
    _need(_is_list(about.get("parameters"), str), "it has no parameters")
    _need(_is_list(about.get("choices"), dict) and about["choices"], "it has no choices")
    for choice in about["choices"]:
        _check_choice(choice, len(about["parameters"]))


def _check_choice(choice: Any, parameters: int) -> None:
    """Raises `StudyFileError` if a choice does not have the members that `save` writes."""
    values, words, files, is_sweep, roads = map(choice.get, ("values", "words", "files", "is_sweep", "roads"))
    _need(isinstance(values, list) and len(values) == parameters, "a choice has other parameters")
    _need(_is_list(words, str) and words[:1] in (["series"], ["sweep"]), "a choice has other words")
    _need(all(map(_WORD.fullmatch, words)), "a choice has other words")
    _need(_is_list(files, str) and files, "a choice has no inputs")
    _need(isinstance(is_sweep, bool) and (is_sweep or words[0] == "series"), "a choice has another kind")
    _need(isinstance(roads, dict) and _is_hash(roads.get("key")), "a choice has no key")
    cars, ensembles = roads.get("cars"), roads.get("ensembles")
    _need(_is_list(cars, int) and _is_list(ensembles, str) and 0 < len(cars) == len(ensembles), "a choice has no roads")
    _need(type(roads.get("cells")) is int, "a choice has no cells")


def _is_list(value: Any, kind: type) -> bool:
    """Whether a value of JSON is a list of this kind. True and False are not whole numbers."""
    return isinstance(value, list) and all(type(item) is kind for item in value)


def _read_value(value: Any) -> Union[str, int, float, Fraction]:
    """The value of a parameter."""
    if isinstance(value, dict):
        _need(list(value) == ["fraction"] and isinstance(value["fraction"], str), "a parameter has no value")
        return Fraction(value["fraction"])
    _need(type(value) in (str, int) or (type(value) is float and math.isfinite(value)), "a parameter has no value")
    plain: Union[str, int, float] = value
    return plain


def _no_number(name: str) -> NoReturn:
    """Raises `StudyFileError` for NaN and infinite numbers, which `json` reads although JSON has none."""
    raise StudyFileError(f"study.json has the number {name}")


def _need(condition: object, message: str) -> None:
    """Raises `StudyFileError` unless a condition holds."""
    if not condition:
        raise StudyFileError(message)
