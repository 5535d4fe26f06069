"""The inputs of the study: sweeps and long runs of small rings, and sweeps of long rings."""
from __future__ import annotations

from collections.abc import Mapping
from dataclasses import replace
from random import Random
from typing import Any, Union

from trlab import Job, Nasch, Sweep

from ..random_starts import jobs_of
from .closed import stationary_road
from .rings import RINGS, WALKS

CHANCES = {"1_4": 0.25, "1_2": 0.5}
"""p of the long rings."""

DENSITIES = [0.1, 0.3, 0.5, 0.8]
"""The densities of the long rings, in cars per cell."""


def sweeps(is_full: bool) -> dict[str, Sweep]:
    """Repetitions of each small ring, for each key."""
    keys, points, warm, measure = (40, 200, 300, 2200) if is_full else (10, 100, 300, 1000)
    return {
        f"{ring.name}_key{number}": ring.sweep(number, points, warm, measure)
        for ring in RINGS
        for number in range(1, keys + 1)
    }


def walks(is_full: bool) -> dict[str, tuple[Job, Any]]:
    """Long runs of some small rings, for each key, and the model of each."""
    keys, steps = (20, 400000) if is_full else (6, 50000)
    return {
        f"{ring.name}_key{number}": (ring.job(number, steps), ring.model)
        for ring in WALKS
        for number in range(1, keys + 1)
    }


def long_rings(is_full: bool) -> dict[str, Sweep]:
    """Repetitions on long rings with v_max = 1, from even initial states."""
    length, points, warm, measure = (10000, 16, 3000, 2000) if is_full else (2000, 24, 1000, 1000)
    shape: dict[str, Any] = {"limit": 1, "length": length, "warm": warm, "measure": measure}
    return {
        f"p_{chance}_{density}": Sweep(**shape, rule=Nasch(p), densities=points * [density], key=10 * row + column)
        for row, (chance, p) in enumerate(CHANCES.items())
        for column, density in enumerate(DENSITIES)
    }


def early_rings(is_full: bool) -> dict[str, Sweep]:
    """Three of them, soon after the start, so that much of the initial state is left."""
    points, shape = 500 if is_full else 150, {"warm": 100, "measure": 100, "key": 500}
    asked = {name: long_rings(False)[name] for name in ("p_1_4_0.3", "p_1_4_0.5", "p_1_2_0.5")}
    return {
        f"{name}_early": replace(sweep, **shape, cars=points * sweep.counts()[:1], densities=None)
        for name, sweep in asked.items()
    }


def from_stationary(asked: Mapping[str, Sweep]) -> dict[str, Job]:
    """The jobs of the same sweeps from roads that are drawn from the stationary state. No warm-up is needed."""
    found = {}
    for name, sweep in asked.items():
        numbers, p = Random(sweep.key), CHANCES[name[2:5]]
        roads = [stationary_road(p, sweep.length, cars, numbers) for cars in sweep.counts()]
        found[name] = replace(sweep, cars=None, densities=None, warm=0, start=roads)
    return jobs_of(found)


def inputs(is_full: bool) -> dict[str, Union[Job, Sweep]]:
    """The inputs that are kept as files, by their names: of the small rings those of the first key."""
    long = {**long_rings(is_full), **early_rings(is_full)}
    asked: dict[str, Union[Job, Sweep]] = {f"{name}.sweep": sweep for name, sweep in long.items()}
    asked.update({f"{name}.sweep": sweep for name, sweep in sweeps(is_full).items() if name.endswith("_key1")})
    asked.update({f"{name}.job": job for name, (job, _) in walks(is_full).items() if name.endswith("_key1")})
    return asked
