"""trlab: cellular automaton road traffic, in ordinary units.

    from trlab import Job, Nasch, Sweep, random_cells

    diagram = Sweep(limit=5, length=1000, rule=Nasch("1/4"), warm=200, measure=400, densities=[0.05, 0.1, 0.2])
    for point in diagram.sweep():
        print(point.density, point.flow)

    job = Job(limit=5, length=100, density=0.2, start=random_cells(1), rule=Nasch(0.25), steps=50, key=7)
    print(job.run()[-1].lanes[0])

Lengths are in cells, times in steps, speeds in cells per step; probabilities and densities (cars per cell) are between
0 and 1; a flow is in cars per step and lane. Results depend only on the input file of a job or a sweep, which `.text()`
returns. Inputs, runs and their rows need no other package; frames, arrays, estimates and plots need numpy, pandas and
matplotlib: `pip install "trlab[analysis]"`. The environment variable `TRLAB` may hold the path of the program (see
`find_program`)."""
from importlib import import_module as _import_module
from typing import Any as _Any

from . import exact as exact
from ._errors import (
    EstimateError, ExitStatusError, FrameError, IncompleteOutputError, MissingLibraryError, OutputFormatError,
    ParameterError,
    ProgramError, ProgramNotFoundError, RejectedInputError, RenamedError, ResultFilesError, RuleError, SnapshotsError,
    StudyFileError, TrlabError, TrlabWarning,
)
from ._inputs.jobs import Duration, Job
from ._inputs.numbers import Density, Key, Probability
from ._inputs.programs import AcceptedProgram, check, explain
from ._inputs.rules import Nasch, Own, Rickert, Rule, SlowToStart
from ._inputs.states import InitialState, even, jammed, moving, random_cells
from ._inputs.sweeps import Sweep
from ._renamed import IN_PACKAGE as _IN_PACKAGE, need_current_name as _need_current_name
from ._results.blocking import Blocking
from ._results.drift import Drift
from ._results.snapshots import Snapshot, Snapshots
from ._results.tables import Point, Table, Window
from ._rules.functions import PythonRule, change, motion
from ._runs.calls import version
from ._runs.cluster import read_tables, write_inputs
from ._runs.location import find_program
from ._runs.many import results, run_all
from ._studies.grid import Grid
from ._studies.keys import key_for
from ._studies.study_file import read_study
from ._version import __version__

_ANALYSIS = {
    "_results.following": ["Cars", "follow"],
    "_results.jams": ["Jam"],
    "_results.trajectories": ["Trajectories", "Trip"],
    "_analysis.detectors": ["detectors", "passings"],
    "_analysis.lifetimes": ["Lifetime", "lifetime", "survival"],
    "_analysis.means": ["means", "per_run"],
    "_analysis.peak": ["Peak", "peak"],
    "_analysis.plots": ["plot_means", "plot_space_time"],
    "_analysis.units": ["UNITS", "to_si"],
}

__all__ = [
    "AcceptedProgram", "Blocking", "Density", "Drift", "Duration", "EstimateError", "ExitStatusError", "FrameError",
    "Grid", "IncompleteOutputError", "InitialState", "Job", "Key", "MissingLibraryError", "Nasch", "OutputFormatError", "Own",
    "ParameterError", "Point", "Probability", "ProgramError", "ProgramNotFoundError", "PythonRule",
    "RejectedInputError",
    "RenamedError", "ResultFilesError", "Rickert", "Rule", "RuleError", "SlowToStart", "Snapshot", "Snapshots",
    "SnapshotsError",
    "StudyFileError", "Sweep", "Table", "TrlabError", "TrlabWarning", "Window", "__version__", "change", "check",
    "even", "explain",
    "find_program", "jammed", "key_for", "motion", "moving", "random_cells", "read_study", "read_tables", "results",
    "run_all",
    "version", "write_inputs",
]


def __getattr__(name: str) -> _Any:
    """A name that needs a library, which is imported when it is first used. Raises `RenamedError` for an old name."""
    _need_current_name("trlab", name, _IN_PACKAGE)
    for module, names in _ANALYSIS.items():
        if name in names:
            value = getattr(_import_module(f"trlab.{module}"), name)
            globals()[name] = value
            return value
    raise AttributeError(f"module 'trlab' has no attribute {name!r}")


def __dir__() -> "list[str]":
    return sorted({*globals(), *(name for names in _ANALYSIS.values() for name in names)})
