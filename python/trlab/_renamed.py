"""Names of older versions, and their replacements: an old name raises an error with the new name."""
from __future__ import annotations

from collections.abc import Mapping

from ._errors import RenamedError

IN_PACKAGE = {
    "Accepted": "trlab.AcceptedProgram",
    "Chance": "trlab.Probability",
    "Failed": "trlab.ProgramError",
    "Figure": "matplotlib: see `trlab.plot_means`",
    "Frame": "pandas.DataFrame, which `Grid.run` returns; its means are `trlab.means(frame, over=\"seed\")`",
    "Picture": "trlab.Snapshot",
    "Pictures": "trlab.Snapshots",
    "Refused": "trlab.RejectedInputError",
    "Scale": "trlab.to_si(frame, cell=7.5, step=1)",
    "SpaceTime": "trlab.plot_space_time",
    "Start": "trlab.InitialState",
    "blocking": (
        "`table.blocking(\"flow\")` with the table of `job.series`. Its `sem_lower_bound` is only a lower bound; for "
        "the error of a mean, repeat the run and take `trlab.means`"
    ),
    "figure": "trlab.plot_means",
    "frame": "trlab.means",
    "jam": "trlab.jammed",
    "map": "trlab.run_all",
    "random": "trlab.random_cells",
    "write_texts": "trlab.write_inputs",
}
"""Names of the package."""

IN_JOB = {"pictures": "`snapshots()`", "wait": "`time_until(condition)`"}
"""Attributes of `Job`."""

IN_ROW = {"passing": "`flow`, in cars per step; the whole number of the file is `flow_millionths`"}
"""Attributes of rows."""

IN_TABLE = {
    "csv": "`text()` for the file as the program writes it, where `flow` is in millionths, or `to_pandas().to_csv()`",
    "plot": "`to_pandas().plot(x=\"density\", y=\"flow\")`, or `trlab.plot_means` with error bars",
}
"""Attributes of `Table`."""

IN_SNAPSHOTS = {
    "to_numpy": "`speeds()`: floats, NaN for an empty cell (`to_numpy()` gave int8, -1 for an empty cell)",
    "space_time": "`trlab.plot_space_time(snapshots)`",
}
"""Attributes of `Snapshots`."""

IN_TRAJECTORIES = {
    "headways": (
        "`gaps()` for the empty cells ahead, which `headways()` gave; `space_headways()`, which are one more; or "
        "`time_headways(cell)`, in steps"
    ),
    "detector": (
        "`trlab.detectors(snapshots, cells, every)` for counts, flows and speeds, or `trlab.passings(snapshots, cells)`"
    ),
}
"""Attributes of `Trajectories`."""

IN_GRID = {"texts": "`named_inputs()`", "frame_of": "`frame(results)`, with results by the names of `named_inputs()`"}
"""Attributes of a `Grid`."""


def need_current_name(owner: str, name: str, names: Mapping[str, str]) -> None:
    """Raises `RenamedError` if a name is an old one of the owner; `names` has the replacement of each old name."""
    if name in names:
        raise RenamedError(f"{owner} no longer has `{name}`: use {names[name]}")
