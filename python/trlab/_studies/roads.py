"""The values of an input's roads that are known before it runs."""
from __future__ import annotations

import json
from collections.abc import Hashable
from dataclasses import astuple
from hashlib import sha256
from typing import TypedDict, Union, cast

from .._inputs.jobs import Job
from .._inputs.numbers import key_digits
from .._inputs.rules import Own, Rule
from .._inputs.states import InitialState
from .._inputs.sweeps import Sweep


class KnownRoads(TypedDict):
    """The key of an input, and by road its cars and its ensemble. All roads have as many cells."""

    key: str
    cells: int
    cars: list[int]
    ensembles: list[str]


def known_roads(input: Union[Job, Sweep]) -> KnownRoads:
    """The roads of an input."""
    is_sweep = isinstance(input, Sweep)
    cars = input.counts() if isinstance(input, Sweep) else [input.count()]
    cells = input.length * input.lanes if isinstance(input, Sweep) else input.cells()
    about = _about(input, cells)
    ensembles = [_digest([is_sweep, count, *about]) + of_cells for count, of_cells in zip(cars, _own_roads(input))]
    return {"key": key_digits(input.key).lower(), "cells": cells, "cars": cars, "ensembles": ensembles}


def _digest(content: object) -> str:
    """The first digits of a SHA-256."""
    return sha256(json.dumps(content).encode()).hexdigest()[:12]


def _own_roads(input: Union[Job, Sweep]) -> list[str]:
    """The part of each road's ensemble for cells that were given one by one: empty for an initial state of trlab."""
    if isinstance(input.start, InitialState):
        return [""] * (len(input.counts()) if isinstance(input, Sweep) else 1)
    roads = input.start if isinstance(input, Sweep) else [input.start]
    return [f"-{_digest(road)}" for road in cast(list[object], roads)]


def _about(input: Union[Job, Sweep], cells: int) -> list[object]:
    """All that repetitions of an input have in common, besides the number of cars and the cells of roads that are given
    cell by cell: everything but the key and the seed of random cells."""
    start = [input.start.placement, input.start.speed] if isinstance(input.start, InitialState) else "roads"
    if isinstance(input, Sweep):
        return [input.limit, input.lanes, cells, start, input.rule.lines(), [input.warm, input.measure]]
    rules = [[-1, *input.rule.lines()], *([step, *rule.lines()] for step, rule in input.at.items())]
    return [input.limit, input.lanes, cells, start, rules, input.steps]


def without_key(input: Union[Job, Sweep], roads: KnownRoads) -> Hashable:
    """Equal for inputs with these roads that differ only in their key, and in a seed of random cells that is this
    key."""
    start = cast(Hashable, input.start)
    if isinstance(start, InitialState) and start.seed == int(roads["key"], 16):
        start = start.placement, start.speed, "key"
    return tuple(roads["ensembles"]), start


def _draws(rule: Rule) -> bool:
    """Whether a rule may draw random numbers: not if all its probabilities are 0 or 1."""
    return isinstance(rule, Own) or any(value not in (0, 1) for value in astuple(rule))


def all_of(input: Union[Job, Sweep], roads: KnownRoads) -> Hashable:
    """Equal for inputs with these roads that give the same output: without random numbers the key makes no
    difference."""
    rules = [input.rule] if isinstance(input, Sweep) else [input.rule, *input.at.values()]
    key = roads["key"] if any(map(_draws, rules)) else ""
    return tuple(roads["ensembles"]), key, cast(Hashable, input.start)
