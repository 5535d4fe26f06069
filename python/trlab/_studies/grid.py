"""A grid of parameters with repetitions: an input and a key for each choice, and one frame of all results."""
from __future__ import annotations

import inspect
import itertools
import re
from collections import namedtuple
from collections.abc import Callable, Hashable, Iterable, Iterator, Mapping, Sequence
from contextlib import closing
from pathlib import Path
from typing import TYPE_CHECKING, Any, Union, cast

from .._errors import ParameterError, set_first_cause
from .._inputs.jobs import Job
from .._inputs.sweeps import Sweep
from .._renamed import IN_GRID, need_current_name
from .._runs.many import results as results_of
from .keys import as_fraction, key_for, written
from .roads import KnownRoads, all_of, known_roads, without_key

if TYPE_CHECKING:
    import pandas

Input = Union[Job, Sweep]

MEASURE = "call=lambda job: job.series(every=2000, first=1000)"

# The options of `trlab.results`, which a grid passes on.
_OPTIONS = [name for name in inspect.signature(results_of).parameters if name != "inputs"]

# Columns of frames that a parameter must not hide. `density` and `cars` are allowed: they are those of the road.
_TAKEN = set(
    "key road ensemble error requested_density cells steps step distance stopped changes flow flow_millionths speed "
    "stopped_share change_rate windows n time observed count occupancy time_mean_speed harmonic_mean_speed "
    "time_headway mean_time_headway cell lane".split()
)


class Grid:
    """A job or sweep for each choice of parameters:

        def make(p, density, seed, key):
            return trlab.Job(limit=5, length=1000, density=density, rule=trlab.Nasch(p), steps=3000, key=key,
                             start=trlab.random_cells(key))

        grid = trlab.Grid(make, p=[0.25, 0.5], density=[0.05, 0.1, 0.2], seed=range(8))
        frame = grid.run(call=lambda job: job.series(every=2000, first=1000), cache="study/cache")
        trlab.means(trlab.per_run(frame), over="seed")

    `make` gets each parameter by name, and also `key`, a number below 2**256, which you should pass to the input.
    Values are numbers or strings. Other values, such as rules and initial states, need names, which frames show:
    `rule={"nasch": Nasch(0.25), "slow": SlowToStart("1/64", 0.75)}, start={"moving": moving, "jammed": jammed}`.

    The key depends only on the names and values of the parameters (`key_for`). A choice keeps its key if the grid
    grows, and different choices have independent random numbers. With another key in `make`, for example `key=seed`,
    choices with the same seed share their random numbers, so that differences between them are less noisy.

    `inputs` maps each choice, a named tuple such as `(p=0.25, density=0.1, seed=3)`, to its input, and `names` has the
    names of the parameters.

    Raises `ParameterError` if two choices give the same input, because `make` ignores a parameter or its `key`; if two
    parameters change only the key, or one with fractions as values; if two requested densities give the same number of
    cars; and if a parameter `density` (within one car), `cars`, `limit`, `length`, `lanes`, `warm` or `measure` is not
    that of the input."""

    def __init__(self, make: Callable[..., Input], /, **parameters: Union[Iterable[Any], Mapping[str, Any]]) -> None:
        values = {name: _named_values(name, choices) for name, choices in parameters.items()}
        self.names: tuple[str, ...] = tuple(values)
        self.inputs: dict[Any, Input] = {}
        choice = _choice_of(self.names)
        _check_make(make, self.names)
        for names in itertools.product(*values.values()):
            chosen = {name: values[name][value] for name, value in zip(self.names, names)}
            key = int(key_for(**dict(zip(self.names, names))), 16)
            self.inputs[choice(*names)] = _made(make, choice(*names), {**chosen, "key": key})
        self._runs = {place: known_roads(input) for place, input in self.inputs.items()}
        for place, input in self.inputs.items():
            _check_roads(place._asdict(), self._runs[place])
            _check_numbers(place._asdict(), input)
        self._check_inputs()

    def _check_inputs(self) -> None:
        """Raises `ParameterError` if a choice or a parameter makes no difference."""
        if "density" in self.names:
            self._check_densities()
        first: dict[Hashable, Any] = {}
        for place, input in self.inputs.items():
            other = first.setdefault(all_of(input, self._runs[place]), place)
            if other is not place:
                raise ParameterError(
                    f"`make` gives the same run for {other} and {place}: use all parameters and `key`; a rule without "
                    "random numbers needs another initial state for each repetition, for example `random_cells(key)`"
                )
        unused = [name for name in self.names if self._changes_only_the_key(name)]
        if len(unused) > 1:
            unused_names = " and ".join(unused)
            raise ParameterError(f"{unused_names} change only the key: use them in `make`, and only one to repeat")
        for name in unused:
            if any(map(_is_fraction, {getattr(place, name) for place in self.inputs})):
                raise ParameterError(
                    f"`{name}` changes only the key, as a repetition does: use it in `make`, or give repetitions whole "
                    "numbers, for example seed=range(8)"
                )

    def _check_densities(self) -> None:
        """Raises `ParameterError` if two densities give the same number of cars."""
        first: dict[Hashable, Any] = {}
        for place, roads in self._runs.items():
            other = first.setdefault((place._replace(density=0), *roads["cars"], roads["cells"]), place)
            if other is not place:
                both = f"{roads['cars'][0]} cars on {roads['cells']} cells"
                raise ParameterError(
                    f"the densities {other.density} and {place.density} are both {both}: leave one out, or take a "
                    "longer road"
                )

    def _changes_only_the_key(self, name: str) -> bool:
        """Whether a parameter is used for repetitions only: choices that differ in it have inputs that differ in their
        key."""
        groups: dict[Hashable, set[Hashable]] = {}
        for place, input in self.inputs.items():
            other_values = place._replace(**{name: None})
            groups.setdefault(other_values, set()).add(without_key(input, self._runs[place]))
        return len(groups) < len(self.inputs) and all(len(inputs) == 1 for inputs in groups.values())

    def __repr__(self) -> str:
        return f"<grid of {len(self.inputs)} inputs by {', '.join(self.names)}>"

    def __getattr__(self, name: str) -> Any:
        need_current_name("a grid", name, IN_GRID)
        raise AttributeError(f"a grid has no {name!r}")

    def results(self, **options: Any) -> Iterator[tuple[Any, Any]]:
        """Yield each choice and its result: `trlab.results` of these inputs, with these options."""
        unknown = [name for name in options if name not in _OPTIONS]
        if unknown:
            raise ParameterError(
                f"the runs of a grid have no option {unknown[0]!r}, only {', '.join(_OPTIONS)}: `at_once` limits the runs "
                "at a time"
            )
        return results_of(self.inputs, **options)

    def run(self, **options: Any) -> pandas.DataFrame:
        """Run all inputs, with the options of `trlab.results`, and return one tidy frame of pandas.

        Its index has the parameters, and levels that distinguish the rows of one result: the `step` of windows, the
        `density` of the points of a sweep, or the index of a frame. The columns are the measured values (see
        `trlab.UNITS`), and three that identify the run of the row: the `key` of the input, the number of the `road` in
        it, and the `ensemble`, equal for inputs that differ only in their key and in the seed of their random start.
        `density` and `cars` are those of the road that ran; `requested_density` is there if it differs.

        `call` returns a table, a frame with a named index, a number, or a row: a mapping or named tuple. For jobs you
        must pass it. With `errors="keep"` a choice without a result is a row of NaN with its text in the column
        `error`.

        To read a frame that was written with `frame.to_csv(file)`, keep texts as texts:

            pandas.read_csv(file, dtype={"key": str, "ensemble": str}).set_index(list(frame.index.names))

        Raises `FrameError` for a result that gives no rows or other roads than its input, or has a column with the name
        of a parameter; and `MissingLibraryError`, before anything runs, if pandas is not installed."""
        from .._analysis.frames import tidy

        if options.get("call") is None and any(isinstance(input, Job) for input in self.inputs.values()):
            raise ParameterError(f"say what to measure in each job, for example {MEASURE}")
        # A frame is checked result by result. If one is wrong, the others must not continue.
        with closing(cast(Any, self.results(**options))) as results:
            frame = tidy(results, self.names, self._runs, options.get("errors") == "keep")
        frame.attrs["trlab"] = self._versions()
        return frame

    def _versions(self) -> dict[str, Any]:
        from .._runs.location import find_program, sha256_of_program
        from .._version import __version__

        return {"trlab": __version__, "program": sha256_of_program(find_program()), "parameters": list(self.names)}

    def save(self, path: Union[str, Path], words: Sequence[str] = ()) -> None:
        """Write the study as one file, from which you or a colleague get the same frame with `read_study(path).run()`:
        a zip archive of the inputs, as the program reads them, and `study.json` with parameters, keys, version and
        SHA-256 of the program. `words` set the measurement in jobs, for example `["series", "--every", "2000",
        "--from", "1000"]`; a sweep needs none. The same study gives the same file. Raises `ParameterError` if jobs
        have no `words`, or sweeps have some."""
        from .study_file import save

        has_jobs = any(isinstance(input, Job) for input in self.inputs.values())
        if has_jobs and (isinstance(words, str) or list(words[:1]) != ["series"]):
            example = 'words=["series", "--every", "100", "--from", "1000"]'
            raise ParameterError(f"say what to measure in each job, for example {example}")
        if words and not has_jobs:
            raise ParameterError("a sweep says itself what is measured: leave out `words`")
        save(self, path, words)

    def named_inputs(self) -> dict[str, Input]:
        """The inputs by names of files such as `p_0.25_seed_3`, for `write_inputs`. Raises `ParameterError` if two
        names are equal."""
        return dict(zip(self._file_names(), self.inputs.values()))

    def frame(self, results: Mapping[str, Any]) -> pandas.DataFrame:
        """The frame of `run` from results by the names of `named_inputs`, for example from `read_tables`. A choice
        whose result is missing or an exception is a row of NaN with its text in the column `error`. Raises
        `ParameterError` if there is a result of another name."""
        from .._analysis.frames import tidy

        places = dict(zip(self._file_names(), self.inputs))
        strange = [name for name in results if name not in places]
        if strange:
            raise ParameterError(
                f"{strange[0]!r} is not an input of this grid, whose first one is {next(iter(places))!r}"
            )
        return tidy({places[name]: result for name, result in results.items()}, self.names, self._runs, keep=True)

    def _file_names(self) -> list[str]:
        names = []
        for choice in self.inputs:
            name = "_".join(f"{name}_{value}" for name, value in zip(self.names, choice)) or "input"
            names.append(re.sub(r"[^\w.+-]", "_", name, flags=re.ASCII))
        if len(set(names)) < len(names):
            raise ParameterError("two choices have the same file name: give the values other names")
        return names


def _check_make(make: Callable[..., Input], names: Sequence[str]) -> None:
    """Raises `ParameterError` unless `make` can be called with these parameters and a key."""
    if not callable(make):
        raise ParameterError(f"a grid needs a function that makes an input of its parameters, not {make!r}")
    try:
        inspect.signature(make).bind(**dict.fromkeys([*names, "key"]))
    except TypeError as error:
        parameters = ", ".join([*names, "key"])
        raise ParameterError(
            f"the grid calls its function with {parameters} by name, which does not fit: {error}"
        ) from None


def _made(make: Callable[..., Input], choice: Any, chosen: Mapping[str, Any]) -> Input:
    """The input of a choice. Raises `ParameterError` for anything else, and an exception of `make` with the choice as
    its first cause."""
    try:
        input = make(**chosen)
    except Exception as error:
        set_first_cause(error, f"`make` failed for {choice!r}")
        raise
    if not isinstance(input, (Job, Sweep)):
        raise ParameterError(f"`make` must return a Job or a Sweep, not {input!r}")
    return input


def _is_fraction(value: object) -> bool:
    """Whether a value of a parameter is a number, but not a whole one."""
    try:
        return as_fraction(value).denominator > 1
    except ValueError:
        return False


def _choice_of(names: Sequence[str]) -> Any:
    """The type of a choice: a named tuple of the values of parameters."""
    try:
        return namedtuple("Choice", names)
    except ValueError as error:
        raise ParameterError(f"a parameter cannot have this name: {error}") from None


def _check_roads(chosen: Mapping[str, Any], roads: KnownRoads) -> None:
    """Raises `ParameterError` if a parameter `density` or `cars` is not that of all roads of an input. A density may be
    rounded up or down to a whole number of cars."""
    for name in "cars", "density":
        if name not in chosen:
            continue
        try:
            expected_cars = as_fraction(chosen[name]) * (1 if name == "cars" else roads["cells"])
        except ValueError:
            wrong = f"the parameter `{name}` must have numbers as values, not {chosen[name]!r}"
            raise ParameterError(f"{wrong}: give it another name") from None
        tolerance = 0 if name == "cars" else 1 - 1e-9 * roads["cells"]
        if len(set(roads["cars"])) > 1 or abs(expected_cars - roads["cars"][0]) > tolerance:
            road = f"{roads['cars'][:5]} cars on {roads['cells']} cells"
            wrong = f"the parameter `{name}` is {chosen[name]}, and the input has {road}"
            raise ParameterError(f"{wrong}: use it in `make`, or give it another name")


def _check_numbers(chosen: Mapping[str, Any], input: Input) -> None:
    """Raises `ParameterError` if a parameter has the name of a number of the input, and another value."""
    for name in "limit", "length", "lanes", "warm", "measure":
        used = getattr(input, name, None)
        if name in chosen and chosen[name] != used:
            wrong = f"the parameter `{name}` is {chosen[name]}, and the input has {used}"
            raise ParameterError(f"{wrong}: use it in `make`, or give it another name")


def _named_values(name: str, choices: Any) -> dict[Any, Any]:
    """The values of a parameter, by the names that frames show."""
    if name in _TAKEN or name.endswith("_sem"):
        raise ParameterError(f"{name} is a column of the results: give the parameter another name")
    if isinstance(choices, (str, bytes)) or not isinstance(choices, Iterable):
        raise ParameterError(f"{name} must be a list of values, not {choices!r}")
    pairs = list(choices.items()) if isinstance(choices, Mapping) else [(value, value) for value in choices]
    if not pairs:
        raise ParameterError(f"{name} has no values")
    for shown, _ in pairs:
        written(name, shown)
    values = dict(pairs)
    if len(values) < len(pairs):
        raise ParameterError(f"{name} has the same value twice")
    return values
