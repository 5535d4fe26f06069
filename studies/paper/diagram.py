"""The fundamental diagram for five p, ten random initial states each, and the peak of each curve with its error."""
from pathlib import Path

import matplotlib.pyplot as plt
import pandas

import trlab
from trlab import Grid, Nasch, Sweep, random_cells

HERE = Path(__file__).parent
plt.style.use(HERE.parent / "figures.mplstyle")
DENSITIES = [0.02, 0.04, 0.06, 0.07, 0.075, 0.08, 0.085, 0.09, 0.095, 0.1, 0.105, 0.11, 0.115, 0.12, 0.125, 0.13, 0.135,
             0.14, 0.145, 0.15, 0.155, 0.16, 0.165, 0.17, 0.18, 0.2, 0.3, 0.5, 0.7, 0.9]
NEAR = [density for density in DENSITIES if 0.1 < density <= 0.16]


def make(p, seed, key, steps=2000, densities=DENSITIES):
    return Sweep(limit=5, length=2000, rule=Nasch(p), warm=steps, measure=steps, densities=densities, key=key,
                 start=random_cells(key))


def make_long(p, seed, key):
    return make(p, seed, key, 20000, NEAR)


frame = Grid(make, p=[0.1, 0.2, 0.3, 0.4, 0.5], seed=range(10)).run(cache=HERE / "cache", progress=True)
curves = dict(list(frame.groupby(level="p")))
# Around the peak for p = 0.2 it takes long until jams form, and no curve fits the means of short runs.
curves[0.2] = Grid(make_long, p=[0.2], seed=range(10)).run(cache=HERE / "cache", progress=True)
peaks = {p: trlab.peak(curve.droplevel("p"), over="seed") for p, curve in curves.items()}
peaks = pandas.DataFrame(peaks.values(), index=pandas.Index(peaks, name="p"))
means = trlab.means(frame, over="seed")
peaks["largest_mean"] = means.flow.groupby("p").max()
peaks["largest_of_a_run"] = frame.flow.groupby(["p", "seed"]).max().groupby("p").mean()

axes = trlab.plot_means(means, hue="p", capsize=0)
axes.errorbar(peaks.x, peaks.y, xerr=peaks.x_sem, yerr=peaks.y_sem, fmt="k+", label="peaks")
axes.set(xlim=(0, 1), ylim=(0, 0.75), title="means ± standard error, 10 runs on 2000 cells")
axes.legend(title="p")
plt.savefig(HERE / "diagram.svg", metadata={"Date": None, "Creator": None})
print(peaks.drop(columns=["chi2", "dof"]).round(4).to_string())
