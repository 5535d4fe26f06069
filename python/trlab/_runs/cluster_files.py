"""The files of a folder of inputs: the inputs and their results, the lists of both, and the program that they belong to."""
from __future__ import annotations

import hashlib
import os
import re
import shutil
from collections.abc import Mapping, Sequence
from pathlib import Path
from typing import NamedTuple, Optional, Union

from .._errors import ParameterError, ProgramNotFoundError, ResultFilesError
from .._inputs.jobs import Job
from .._inputs.sweeps import Sweep
from .location import printed_by
from .ownership import new_path
from .parts import requests_of
from .requests import Request

# The name of a part of an input, such as `NAME~3of20`; and an argument that a shell reads as it is.
_PART = re.compile(r"(?P<input>.+)~(?P<number>[0-9]+)of(?P<count>[0-9]+)")
_ARGUMENT = re.compile("[a-zA-Z0-9=-]+")

# The arguments of the program for each file, by the name of the file.
Arguments = Mapping[str, tuple[str, ...]]


class RequestFile(NamedTuple):
    """A request as a file, whose name has no ending."""

    name: str
    request: Request

    @property
    def input(self) -> str:
        """The name of the input file."""
        return f"{self.name}.{'sweep' if self.request.arguments[0] == 'sweep' else 'job'}"

    @property
    def result(self) -> str:
        """The name of the result file."""
        return f"{self.name}.{'out' if self.request.arguments[0] == 'run' else 'csv'}"

    @property
    def error(self) -> str:
        """The name of the file that says why there is no result."""
        return f"{self.name}.error"

    def with_arguments(self, arguments: tuple[str, ...]) -> RequestFile:
        """The file of the same input for other arguments."""
        return self._replace(request=self.request._replace(arguments=arguments))

    def line(self) -> str:
        """The line of array.txt."""
        endings = [name.rpartition(".")[2] for name in (self.input, self.result)]
        return "\t".join([str(self.request.lines()), *endings, " ".join(self.request.arguments), self.name]) + "\n"


def files_of(name: str, input: Union[Job, Sweep], arguments: Sequence[str]) -> list[RequestFile]:
    """The files of an input: one, or a file for each of its parts."""
    requests = requests_of(input, arguments)
    if len(requests) == 1:
        return [RequestFile(name, requests[0])]
    names = names_of_parts(name, len(requests))
    return [RequestFile(name_of_part, request) for name_of_part, request in zip(names, requests)]


def names_of_parts(name: str, count: int) -> list[str]:
    """The names of the parts of an input."""
    return [f"{name}~{number}of{count}" for number in range(1, count + 1)]


def name_and_files_of_part(file_name: str) -> tuple[str, list[str]]:
    """The input to which a file belongs, and the names of all files of this input."""
    part = _PART.fullmatch(file_name)
    if part is None:
        return file_name, [file_name]
    return part["input"], names_of_parts(part["input"], int(part["count"]))


def checked_folder(folder: Union[str, Path]) -> Path:
    """A folder that a line of a script can name."""
    if not str(folder):
        raise ParameterError("'' cannot be the folder: its path must be printable")
    path = Path(folder).expanduser().resolve()
    if not str(path).isprintable():
        raise ParameterError(f"{str(path)!r} cannot be the folder: its path must be printable")
    return path


def checked_name(name: str) -> str:
    """A name that is the beginning of a file name, and one line."""
    is_name = isinstance(name, str) and name != "" and name.isprintable() and "/" not in name and name[0] != "."
    if not is_name or _PART.fullmatch(name):
        raise ParameterError(
            f"{name!r} cannot be the name of a file: no slash, control character, leading dot or end like ~1of2"
        )
    return name


def checked_arguments(arguments: Sequence[str]) -> list[str]:
    """A command of the program and its options, which a shell reads as they are."""
    checked = list(arguments)
    if isinstance(arguments, str) or not checked or not all(_ARGUMENT.fullmatch(argument) for argument in checked):
        raise ParameterError(f'words must be a list such as ["series", "--every", "100"], not {arguments!r}')
    return checked


def content_of(file: Path) -> Optional[str]:
    """The content of a file, or None if there is none, or no text."""
    try:
        return file.read_bytes().decode()
    except (FileNotFoundError, UnicodeDecodeError):
        return None


def write_file(file: Path, content: str) -> None:
    """Writes a file as a whole: a task that reads it now gets the old or the new one."""
    new = new_path(file.parent, "text")
    new.write_bytes(content.encode())
    os.replace(new, file)


def recorded_arguments(folder: Path) -> dict[str, tuple[str, ...]]:
    """The arguments of the program for each file that a folder was written with."""
    try:
        lines = (folder / "array.words").read_text("utf-8").splitlines()
    except FileNotFoundError:
        return {}
    arguments_by_name = {}
    for line in lines:
        name, tab, arguments = line.partition("\t")
        if tab:
            arguments_by_name[name] = tuple(arguments.split(" "))
    return arguments_by_name


def record_arguments(folder: Path, arguments: Arguments) -> None:
    """Writes the arguments of the program for each file."""
    write_file(folder / "array.words", "".join(f"{name}\t{' '.join(words)}\n" for name, words in arguments.items()))


def need_own_results(folder: Path, files: Sequence[RequestFile], recorded: Arguments) -> None:
    """Raises `ResultFilesError` if there are results that other inputs or other arguments gave."""
    for file in files:
        has_same_request = (
            recorded.get(file.name) == file.request.arguments and content_of(folder / file.input) == file.request.text
        )
        if (folder / file.result).exists() and not has_same_request:
            raise ResultFilesError(
                f"{folder / file.result} is the result of another input: remove it, or take another folder"
            )


def identity_of(program: str) -> Optional[str]:
    """The version and the SHA-256 of a program as array.sh finds them, or None if it is not on this machine."""
    path = shutil.which(program)
    if path is None:
        return None
    version = (printed_by(path, "--version") or "").split("\n")[0]
    if not version.startswith("trlab "):
        raise ProgramNotFoundError(f"{path} is not trlab: it does not answer to --version as trlab does")
    return f"{version} {hashlib.sha256(Path(path).read_bytes()).hexdigest()}"


def record_identity(folder: Path, identity: Optional[str]) -> None:
    """Has a folder remember its program. Raises `ResultFilesError` if it has results of another one."""
    file = folder / "array.program"
    recorded = content_of(file)
    if recorded is not None and recorded == f"{identity}\n":
        return
    has_results = any(folder.glob("*.csv")) or any(folder.glob("*.out"))
    if has_results and (recorded is None or identity is not None):
        program = "an unknown program" if recorded is None else f"another program, {recorded.strip()}"
        raise ResultFilesError(f"{folder} has results of {program}: take another folder, or remove its results")
    if identity is not None:
        write_file(file, f"{identity}\n")
    elif not has_results:
        file.unlink(missing_ok=True)
