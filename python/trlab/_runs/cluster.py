"""Many inputs as files: a folder that runs on a cluster, and the tables that come back."""
from __future__ import annotations

from collections.abc import Mapping, Sequence
from pathlib import Path
from typing import Any, Literal, Optional, Union, overload

from .._errors import ParameterError, ResultFilesError
from .._inputs.jobs import Job
from .._inputs.numbers import checked_int
from .._inputs.sweeps import Sweep
from .._results.tables import Point, Row, Table, Window
from .cluster_files import (
    Arguments, RequestFile, checked_arguments, checked_folder, checked_name, files_of, identity_of,
    name_and_files_of_part, need_own_results, record_arguments, record_identity, recorded_arguments, write_file,
)
from .cluster_results import table_of
from .cluster_script import script_of
from .location import find_program
from .parts import joined
from .requests import Request


def write_inputs(
    folder: Union[str, Path],
    inputs: Mapping[str, Union[Job, Sweep]],
    words: Sequence[str] = ("sweep",),
    program: Optional[str] = None,
    per_task: int = 1,
) -> Path:
    """Write each input as `folder/NAME.sweep` (`folder/NAME.job` for other words), and a script for a Slurm array,
    whose path is returned:

        sbatch folder/array.sh

    A task passes `per_task` inputs to the program with these words, for example `["series", "--every", "100"]`, and
    writes `folder/NAME.csv` (`folder/NAME.out` for `run`). A result is complete or absent, even if a task is killed; a
    restarted task skips finished inputs. Slurm's messages go to `folder/slurm-*.out`, and `folder/NAME.error` says why
    an input has no result. If the cluster limits the number of tasks, often to 1001, increase `per_task`. Without
    Slurm, `sh folder/array.sh` runs all inputs in sequence, and GNU parallel runs N tasks side by side (the script
    names N):

        seq N | parallel SLURM_ARRAY_TASK_ID={} sh folder/array.sh

    A sweep that does not fit in a single file, because it is long or starts from another state than `even`, is written
    as several files, such as `folder/NAME~3of20.job`, and `read_tables` joins their results to one table.

    `program` is the path of trlab on the tasks' machines, by default its path here. All results of a folder come from
    one program: `array.program` has its version and SHA-256, and a task that finds another program ends with an error.
    Raises `ResultFilesError` if the folder has a result of another program, of another input or of other words under
    one of the names, and `ParameterError` for invalid file names."""
    path = checked_folder(folder)
    inputs_per_task = checked_int("per_task", per_task, 1, 10**9)
    program_path = program or find_program()
    arguments = checked_arguments(words)
    files = [file for name, input in inputs.items() for file in files_of(checked_name(name), input, arguments)]
    if len({file.name for file in files}) < len(files):
        raise ParameterError("two inputs have the same file name")
    path.mkdir(parents=True, exist_ok=True)
    recorded = recorded_arguments(path)
    need_own_results(path, files, recorded)
    record_identity(path, identity_of(program_path))
    for file in files:
        write_file(path / file.input, file.request.text)
        (path / file.error).unlink(missing_ok=True)
    record_arguments(path, {**recorded, **{file.name: file.request.arguments for file in files}})
    write_file(path / "array.txt", "".join(file.line() for file in files))
    write_file(path / "array.sh", script_of(path, program_path, len(files), inputs_per_task))
    return path / "array.sh"


@overload
def read_tables(
    folder: Union[str, Path],
    kind: type[Row],
    inputs: Optional[Mapping[str, Union[Job, Sweep]]] = ...,
    errors: Literal["raise"] = ...,
) -> dict[str, Table[Row]]: ...


@overload
def read_tables(
    folder: Union[str, Path],
    kind: type[Row],
    inputs: Optional[Mapping[str, Union[Job, Sweep]]] = ...,
    *,
    errors: str,
) -> dict[str, Any]: ...


def read_tables(
    folder: Union[str, Path],
    kind: type[Row],
    inputs: Optional[Mapping[str, Union[Job, Sweep]]] = None,
    errors: str = "raise",
) -> dict[str, Any]:
    """Read the tables of a folder of `write_inputs`, by name; `kind` is `Point` for sweeps and `Window` for series.
    With the `inputs` of `write_inputs` the tables are in their order, and each must be the complete table of its input.
    Without them every table of the folder is read, and one that ends after a whole row counts as complete.

    One `ResultFilesError` names every table that is missing, empty, short, damaged, impossible or of another input.
    With `errors="keep"` each of these tables is a `ResultFilesError` in the result, so that the others can be used, for
    example by `Grid.frame`."""
    if errors not in ("raise", "keep"):
        raise ParameterError(f'errors must be "raise" or "keep", not {errors!r}')
    path = Path(folder).expanduser()
    recorded = recorded_arguments(path)
    files_by_name = _all_files_in(path, kind, recorded) if inputs is None else _files_of_all(inputs, kind, recorded)
    tables: dict[str, Any] = {}
    errors_of_tables: list[ResultFilesError] = []
    for name, files in files_by_name.items():
        try:
            tables[name] = joined(kind, [table_of(path, file) for file in files])
        except ResultFilesError as error:
            tables[name] = error
            errors_of_tables.append(error)
    if errors_of_tables and errors == "raise":
        lines = "\n".join(f"  {error}" for error in errors_of_tables)
        raise ResultFilesError(f"{len(errors_of_tables)} of {len(tables)} tables in {path} cannot be used:\n{lines}")
    return tables


def _files_of_all(
    inputs: Mapping[str, Union[Job, Sweep]], kind: Any, recorded: Arguments
) -> dict[str, list[RequestFile]]:
    """The files of each input, by its name. Raises `ParameterError` if an input has tables of another kind."""
    files_by_name: dict[str, list[RequestFile]] = {}
    for name, input in inputs.items():
        if kind is not (Point if isinstance(input, Sweep) else Window):
            raise ParameterError(
                f"{name!r} is a {type(input).__name__}: sweeps have tables of kind Point, jobs of kind Window"
            )
        files = files_of(name, input, ["sweep"] if isinstance(input, Sweep) else ["series"])
        if isinstance(input, Job):
            # Only the folder records which windows of a job were requested.
            files = [file.with_arguments(recorded.get(file.name, file.request.arguments)) for file in files]
        files_by_name[name] = files
    return files_by_name


def _all_files_in(folder: Path, kind: Any, recorded: Arguments) -> dict[str, list[RequestFile]]:
    """The files of all tables of a folder, whose inputs are unknown and have no text here."""
    usual_arguments = ("sweep",) if kind is Point else ("series",)
    files_by_name: dict[str, list[RequestFile]] = {}
    for file_name in sorted(file.stem for file in folder.glob("[!.]*.csv")):
        name, names = name_and_files_of_part(file_name)
        files_by_name[name] = [RequestFile(part, Request(recorded.get(part, usual_arguments), "")) for part in names]
    return files_by_name
