"""Slow-to-start cars: both branches of the flow, and how long the upper one lives if some lives are cut off."""
from pathlib import Path

import matplotlib.pyplot as plt
import pandas

import trlab
from trlab import Grid, Job, SlowToStart, jammed, moving

HERE = Path(__file__).parent
plt.style.use(HERE.parent / "figures.mplstyle")
ROAD = {"limit": 5, "length": 1000, "rule": SlowToStart("1/64", "3/4")}


def branch(start, density, seed, key):
    return Job(**ROAD, density=density, start=start, steps=600, key=key)


def free_flow(density, seed, key):
    return Job(**ROAD, density=density, start=moving, steps=5000, key=key)


grid = Grid(branch, start={"moving": moving, "jammed": jammed}, seed=range(5),
            density=[0.02, 0.04, 0.05, 0.06, 0.08, 0.1, 0.12, 0.14, 0.15, 0.16, 0.2, 0.3])
runs = trlab.per_run(grid.run(call=lambda job: job.series(every=300, first=300)))
lives = Grid(free_flow, density=[0.163, 0.165, 0.17], seed=range(60)).run(
    call=lambda job: job.time_until(lambda window: window.stopped > 0, every=10))

figure, (left, right) = plt.subplots(1, 2, figsize=(9, 4))
trlab.plot_means(trlab.means(runs, over="seed"), hue="start", ax=left, linestyle="none")
left.set(xlim=(0, 0.31), ylim=(0, 0.8), title="means ± standard error, 5 runs")
means = {}
for density, its in lives.groupby(level="density"):
    if its.observed.all():  # then the mean needs no law
        mean = trlab.means(its, over="seed", of="time").iloc[0]
        means[density] = trlab.Lifetime(mean.time, mean.time_sem, len(its), 0)
    else:
        means[density] = trlab.lifetime(its.time, its.observed)
    trlab.survival(its.time, its.observed).survival.plot(ax=right, logy=True, drawstyle="steps-post",
                                                         label=f"density {density}")
right.set(xlabel="time (steps)", ylabel="share still without a stopped car", title="Kaplan-Meier, 60 runs")
right.legend()
figure.savefig(HERE / "hysteresis.svg", metadata={"Date": None, "Creator": None})
print(pandas.DataFrame(means.values(), index=pandas.Index(means, name="density")).round(0).to_string())
