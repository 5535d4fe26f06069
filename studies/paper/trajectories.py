"""Trajectories: a space-time diagram, how gaps and time headways are distributed, and how long jams live."""
from pathlib import Path

import matplotlib.pyplot as plt
import pandas

import trlab
from trlab import Grid, Job, Nasch, random_cells

HERE = Path(__file__).parent
plt.style.use(HERE.parent / "figures.mplstyle")


def make(density, seed, key):
    return Job(limit=5, length=1000, density=density, rule=Nasch("1/4"), steps=2000, start=random_cells(key), key=key)


def measured(job):
    """The measurements of the second half of a run: a column for each name."""
    snapshots = job.run(first=1000)
    trajectories = snapshots.trajectories()
    jams = trajectories.jams()
    return {
        "gap": trajectories.gaps().mean(), "space_headway": trajectories.space_headways().mean(),
        "time_headway": trlab.passings(snapshots, cells=[500]).time_headway.mean(),
        "jams": len(jams), "jam_lifetime": sum(jam.lifetime for jam in jams) / sum(not jam.is_censored for jam in jams),
    }


grid = Grid(make, density=[0.1, 0.2, 0.4], seed=range(5))
means = trlab.means(grid.run(call=measured), over="seed")

figure, (diagram, left, right) = plt.subplots(1, 3, figsize=(12, 4))
for choice, job in grid.inputs.items():
    if choice.seed == 0:
        snapshots = job.run(first=1000)
        gaps = snapshots.trajectories().gaps()
        headways = trlab.passings(snapshots, cells=[500]).time_headway.dropna()
        for axes, values in (left, pandas.Series(gaps.ravel())), (right, headways):
            shares = values.value_counts(normalize=True).sort_index()
            axes.semilogy(shares[shares.index <= 30], "o-", label=f"density {choice.density}")
        if choice.density == 0.2:
            trlab.plot_space_time(snapshots[-201:], ax=diagram, limit=5)
            diagram.set_title("density 0.2")
left.set(xlabel="gap (cells)", ylabel="share of cars and steps", title="one run per density")
right.set(xlabel="time headway (steps)", ylabel="share of cars at cell 500", title="one run per density")
right.legend()
figure.savefig(HERE / "trajectories.svg", metadata={"Date": None, "Creator": None})
print(means.round(3).T.to_string())
