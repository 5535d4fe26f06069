"""The unit of each column, and its conversion to metres and hours."""
from __future__ import annotations

import math
from collections.abc import Hashable, Sequence

from .._errors import FrameError, ParameterError
from .columns import as_numbers, strange_value, wrong_unit
from .required import pandas

UNITS = {
    "density": "cars per cell",
    "requested_density": "cars per cell",
    "flow": "cars per step and lane",
    "speed": "cells per step",
    "stopped_share": "",
    "change_rate": "lane changes per car and step",
    "cars": "cars",
    "cells": "cells",
    "steps": "steps",
    "step": "steps",
    "distance": "cells",
    "stopped": "cars times steps",
    "changes": "lane changes",
    "cars0": "cars times steps",
    "distance0": "cells",
    "stopped0": "cars times steps",
    "cars1": "cars times steps",
    "distance1": "cells",
    "stopped1": "cars times steps",
    "windows": "",
    "n": "",  # the number of runs of a mean
    "time": "steps",
    "observed": "",
    "survival": "",
    "at_risk": "",
    "cell": "cells",
    "count": "cars",
    "occupancy": "",
    "time_mean_speed": "cells per step",
    "harmonic_mean_speed": "cells per step",
    "time_headway": "steps",
    "mean_time_headway": "steps",
    "density_per_km": "vehicles per km and lane",
    "requested_density_per_km": "vehicles per km and lane",
    "flow_per_h": "vehicles per h and lane",
    "speed_km_per_h": "km/h",
    "time_mean_speed_km_per_h": "km/h",
    "harmonic_mean_speed_km_per_h": "km/h",
    "change_rate_per_h": "lane changes per vehicle and h",
    "time_s": "s",
    "time_headway_s": "s",
    "mean_time_headway_s": "s",
}
"""The unit of each column that trlab makes, "" for a share, a flag, and a number of runs, windows or lives. `X_sem` has
the unit of `X`. Flows and densities are per lane: on two lanes they are means over the lanes."""

_ENDINGS = ["_per_km", "_per_h", "_km_per_h", "_s"]


def to_si(frame: pandas.DataFrame, cell: float = 7.5, step: float = 1.0) -> pandas.DataFrame:
    """The frame with vehicles per km, vehicles per h, km/h and s, if a cell is `cell` metres long and a step takes
    `step` seconds. Converted columns and index levels, with their errors, get names with the new unit:

    - `density_per_km` = density x 1000 / cell, `flow_per_h` = flow x 3600 / step, both per lane;
    - `speed_km_per_h` = speed x 3.6 x cell / step, also for the two mean speeds of detectors;
    - `change_rate_per_h` = change_rate x 3600 / step;
    - `time_s`, `time_headway_s` and `mean_time_headway_s` = steps x step.

    Counts, shares and `step` stay as they are. Raises `FrameError` if the frame was converted before, has nothing to
    convert, or is not in the units of trlab, as the file of a table that pandas has read. Raises `ParameterError`
    unless `cell` and `step` are finite and above 0."""
    for name, value in {"cell": cell, "step": step}.items():
        if isinstance(value, bool) or not 0 < value < math.inf:
            raise ParameterError(f"`{name}` must be a finite number above 0, not {value!r}")
    factors = _factors(cell, step)
    new_names = {_native(name) + ending: name + ending for name in factors for ending in ("", "_sem")}
    has_index = frame.index.names != [None]
    flat = frame.reset_index() if has_index else frame.copy()
    converted_before = [name for name in new_names.values() if name in flat]
    names_to_convert = [name for name in flat if name in new_names]
    if converted_before:
        raise FrameError(f"{converted_before[0]} was converted before: convert the original frame")
    if not names_to_convert:
        raise FrameError(f"none of the columns {list(flat)} has a unit to convert")
    _need_units(flat, names_to_convert)
    for name in names_to_convert:
        flat[name] = flat[name].astype(float) * factors[new_names[name].removesuffix("_sem")]
    flat = flat.rename(columns=new_names)
    return flat.set_index([new_names.get(name, name) for name in frame.index.names]) if has_index else flat


def _factors(cell: float, step: float) -> dict[str, float]:
    """The factor of each column that `to_si` makes, by the name that it gets."""
    flow, speed = 3600 / step, 3.6 * cell / step
    return {
        "density_per_km": 1000 / cell, "requested_density_per_km": 1000 / cell,
        "flow_per_h": flow, "change_rate_per_h": flow,
        "speed_km_per_h": speed, "time_mean_speed_km_per_h": speed, "harmonic_mean_speed_km_per_h": speed,
        "time_s": step, "time_headway_s": step, "mean_time_headway_s": step,
    }


def _need_units(frame: pandas.DataFrame, names: Sequence[str]) -> None:
    """Raises `FrameError` if a column is not in the unit that its name has in trlab."""
    for name in names:
        if wrong := wrong_unit(name, as_numbers(frame[name])):
            raise FrameError(f"{wrong}, and `to_si` converts from these units")
    if name := strange_value(frame):
        raise FrameError(f"`{name}` is not what the counts of its row say: convert the frame that trlab made")


def _native(name: str) -> str:
    """The name of a column before its conversion."""
    ending = max((ending for ending in _ENDINGS if name.endswith(ending)), key=len)
    return name.removesuffix(ending)


def label(name: Hashable) -> str:
    """The label of an axis: the name of a column, and its unit."""
    unit = UNITS.get(str(name), "")
    native = _native(str(name)) if unit and str(name).endswith(tuple(_ENDINGS)) else str(name)
    return native.replace("_", " ") + (f" ({unit})" if unit else "")
