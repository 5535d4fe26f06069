"""Slow-to-start cars, after Barlovic, Santen, Schadschneider and Schreckenberg (1998): both branches of their flow and
the lifetime of the upper one, with v_max = 5, p = 1/64 and p0 = 3/4.

About a minute of CPU time; --full takes ten keys instead of three, runs twelve times as long, and ten times as many
lifetimes."""
import matplotlib.pyplot as plt
import pandas

import trlab
from trlab import Job, SlowToStart, Window

from ..study import Study, with_error, write_rows

LIMIT, LENGTH, BRAKE, STOPPED_BRAKE = 5, 10000, 1 / 64, 3 / 4
RULE = SlowToStart(BRAKE, STOPPED_BRAKE)
DENSITIES = [0.03, 0.04, 0.045, 0.05, 0.055, 0.06, 0.08, 0.1, 0.12, 0.14, 0.15, 0.16, 0.2, 0.3]
STARTS = {"jam": trlab.jammed, "moving": trlab.moving}
# All gaps are 5 at first, so that each car just has room for the limit.
LIFE_DENSITY, LIFE_LENGTHS, LIFE_STEPS = "1/6", [600, 1200, 2400, 4800], 3000


def branches(is_full):
    """A job for each start, density and key."""
    keys, steps = (10, 100000) if is_full else (3, 8000)
    return {
        f"{name}_{density}_key{key}": Job(
            limit=LIMIT, length=LENGTH, density=density, start=start, rule=RULE, steps=steps, key=key
        )
        for name, start in STARTS.items()
        for density in DENSITIES
        for key in range(1, keys + 1)
    }


def last_half(job):
    """The counts of the second half of a run."""
    return job.series(every=job.steps // 2, first=job.steps // 2)


def lives(is_full):
    """A job for each length and key, all cars moving."""
    return {
        f"life_{length}_key{key}": Job(
            limit=LIMIT, length=length, density=LIFE_DENSITY, start=trlab.moving, rule=RULE, steps=LIFE_STEPS, key=key
        )
        for length in LIFE_LENGTHS
        for key in range(1, (400 if is_full else 40) + 1)
    }


def life(job):
    """The first step in which a car is stopped; all steps if none was."""
    return job.time_until(lambda window: window.stopped > 0).time


def free(density):
    """The line of free flow, as commonly quoted from the paper."""
    return density * (LIMIT - BRAKE)


def with_a_jam(density):
    """The line of a road with a jam, as commonly quoted from the paper."""
    return (1 - STOPPED_BRAKE) * (1 - density)


LINES = {"moving": free, "jam": with_a_jam}


def shown(runs):
    """The mean with its standard error, or every run if they differ by more than 6 %: then some have left a branch."""
    mean = trlab.means(runs.set_index("input"), over="input", of=["flow"]).iloc[0]
    if runs.flow.max() - runs.flow.min() > 0.06 * mean.flow:
        return "each: " + ", ".join(f"{flow:.4f}" for flow in runs.flow)
    return with_error(mean.flow, mean.flow_sem)


def print_branches(runs):
    """A row of the page for each density."""
    for density in sorted(set(runs.density)):
        its = {name: runs[(runs.start == name) & (runs.density == density)] for name in LINES}
        cells = [f"{line(density):.6f} | {shown(its[name])}" for name, line in LINES.items()]
        print(f"| {density} |", " | ".join(cells), "|")


def measured_lives(study):
    """The lives that were measured, from a file or from new runs: a frame with `text`, `length` and `life`."""
    file = study.folder / "lives.csv"
    if not study.is_drawn_only:
        jobs = lives(study.is_full)
        study.write_inputs(jobs)
        found = study.results(jobs, life)
        write_rows(file, ["text", "length", "life"], [[name, job.length, found[name]] for name, job in jobs.items()])
    return pandas.read_csv(file)


def mean_life(lives):
    """The mean life and its standard error. If some lives were cut off, their plain mean would be too low: then it is the mean
    of exponential lives of which these are only known to be longer."""
    if (lives < LIFE_STEPS).all():
        return lives.mean(), lives.sem()
    return trlab.lifetime(lives, lives < LIFE_STEPS)[:2]


def print_lives(found):
    """A row of the page for each length."""
    for length, lives in found.groupby("length").life:
        mean, sem = mean_life(lives)
        product = f"{length * mean / 1000:.0f} ± {length * sem / 1000:.0f}"
        ended = int((lives < LIFE_STEPS).sum())
        print(f"| {length} | {mean:.0f} ± {sem:.0f} | {ended} of {len(lives)} | {product} |")


def draw(study, runs):
    """A point for each run, because some have left the upper branch and some have not; no error bars, therefore."""
    meet = (1 - STOPPED_BRAKE) / (LIMIT - BRAKE + 1 - STOPPED_BRAKE)
    _, axes = plt.subplots()
    axes.plot([0, 0.17], [free(0), free(0.17)], "-", label="as quoted, free flow")
    axes.plot([meet, 0.31], [with_a_jam(meet), with_a_jam(0.31)], "-", label="as quoted, with a jam")
    for name, marker in ("jam", "o"), ("moving", "^"):
        its = runs[runs.start == name]
        axes.plot(its.density, its.flow, marker, fillstyle="none", label=f"each run, initial state: {name}")
    axes.set(xlim=(0, 0.31), ylim=(0, 0.9), xlabel="density (cars per cell)", ylabel="flow (cars per step and lane)")
    axes.legend()
    study.save(axes)


def main():
    study = Study.by_words(__file__, __doc__)
    runs = study.frame("table.csv", Window, branches(study.is_full), last_half)
    runs = runs.assign(start=runs.input.str.partition("_")[0])
    print_branches(runs)
    print_lives(measured_lives(study))
    draw(study, runs)


if __name__ == "__main__":
    main()
