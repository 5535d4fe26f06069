"""Detectors: flow and occupancy per minute, and the mean speeds of a detector compared with the mean speed on the road."""
from pathlib import Path

import matplotlib.pyplot as plt

import trlab
from trlab import Grid, Job, Nasch, random_cells

HERE = Path(__file__).parent
plt.style.use(HERE.parent / "figures.mplstyle")


def make(density, seed, key):
    return Job(limit=5, length=1000, density=density, rule=Nasch("1/4"), steps=3400, start=random_cells(key), key=key)


def hour(job):
    """One row of a detector for the whole measurement, together with the mean speed on the road."""
    detector, road = job.detectors(cells=[500], every=2400, first=1000).iloc[0], job.series(every=2400, first=1000)[0]
    return {
        "occupancy": detector.occupancy, "flow_by_harmonic": detector.flow / detector.harmonic_mean_speed,
        "time_mean": detector.time_mean_speed, "harmonic_mean": detector.harmonic_mean_speed, "space_mean": road.speed,
    }


grid = Grid(make, density=[0.05, 0.1, 0.15, 0.2, 0.3, 0.5], seed=range(5))
minutes = grid.run(call=lambda job: job.detectors(cells=[500], every=60, first=1000))
means = trlab.means(grid.run(call=hour), over="seed")

axes = minutes.xs(0, level="seed").reset_index().plot.scatter("occupancy", "flow", c="density", cmap="viridis", s=8)
axes.set(xlabel="occupancy (share of time)", ylabel="flow (cars per step)", title="one run per density, a point for 60 steps")
axes.figure.savefig(HERE / "detectors.svg", metadata={"Date": None, "Creator": None})
print(means.round(4).T.to_string())
