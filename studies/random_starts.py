"""The same sweeps from random initial states.

Each point is a job of its own, so a long run that was killed continues with the points that are missing."""
from __future__ import annotations

from collections.abc import Callable, Mapping
from dataclasses import replace

from trlab import Job, Point, Sweep, random_cells


def jobs_of(sweeps: Mapping[str, Sweep]) -> dict[str, Job]:
    """A job for each point of each sweep, named after the sweep and the number of the point, from 0 on."""
    return {f"{name}_{number}": job for name, sweep in sweeps.items() for number, job in enumerate(sweep.jobs())}


def from_random(sweeps: Mapping[str, Sweep]) -> dict[str, Job]:
    """The jobs of the same sweeps from random initial states; the seed of the cells is the key of the sweep."""
    return jobs_of({name: replace(sweep, start=random_cells(int(sweep.key))) for name, sweep in sweeps.items()})


def last_steps(measure: int) -> Callable[[Job], list[Point]]:
    """The call that counts the last `measure` steps of a job, as a sweep does."""

    def counted(job: Job) -> list[Point]:
        windows = job.series(every=measure, first=job.steps - measure)
        return [Point(*window[1:1 + len(Point._fields)]) for window in windows]

    return counted


def sweep_of(name: str) -> str:
    """The name of the sweep of a job: the name of the job without its number."""
    return name.rpartition("_")[0]
