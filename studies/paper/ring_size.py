"""How high is the maximum flow of a long road? Small rings carry more: the peaks of three rings, and the published maximum."""
from pathlib import Path

import matplotlib.pyplot as plt
import pandas

import trlab
from trlab import Grid, Nasch, Sweep, random_cells

HERE = Path(__file__).parent
plt.style.use(HERE.parent / "figures.mplstyle")
DENSITIES = [0.07, 0.0725, 0.075, 0.0775, 0.08, 0.0825, 0.085, 0.0875, 0.09, 0.095, 0.1]


def make(length, warm, seed, key):
    return Sweep(limit=5, length=length, rule=Nasch("1/2"), warm=warm, measure=10000, densities=DENSITIES, key=key,
                 start=random_cells(key))


grid = Grid(make, length=[2000, 4000, 10000], warm=[10000], seed=range(16))
runs = grid.run(cache=HERE / "cache", progress=True).droplevel("warm")
peaks = {length: trlab.peak(curve.droplevel("length"), over="seed")
         for length, curve in runs.groupby(level="length")}
peaks = pandas.DataFrame(peaks.values(), index=pandas.Index(peaks, name="length"))

axes = trlab.plot_means(trlab.means(runs, over="seed"), hue="length", linestyle="none")
for number, its in enumerate(peaks.itertuples()):
    axes.errorbar(its.x, its.y, xerr=its.x_sem, yerr=its.y_sem, fmt="x", markersize=8, color=f"C{number}")
axes.errorbar(0.086, 0.318, xerr=0.002, yerr=0.0005, fmt="s", color="black", label="as quoted (10,000 cells)")
axes.set(title="means ± standard error, 16 runs; crosses: peaks")
axes.legend(title="length (cells)")
plt.savefig(HERE / "ring_size.svg", metadata={"Date": None, "Creator": None})
print(peaks.round(4).to_string())
