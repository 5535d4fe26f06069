"""A rule of your own with a parameter: the Nagel-Schreckenberg model with p = 1/4, in which drivers leave g cells free."""
from pathlib import Path

import matplotlib.pyplot as plt

import trlab
from trlab import Grid, Own, Sweep, random_cells

HERE = Path(__file__).parent
plt.style.use(HERE.parent / "figures.mplstyle")
DENSITIES = [n / 50 for n in range(1, 26)]


@trlab.motion
def keep_distance(car, g, p=0.25):
    v = min(car.speed + 1, car.limit, max(car.gap - g, 0))
    if car.draw(p):
        v = max(v - 1, 0)
    return v


def make(g, seed, key):
    return Sweep(limit=5, length=500, rule=Own(keep_distance(g=g)), warm=500, measure=500, key=key, start=random_cells(key),
                 densities=DENSITIES)


means = trlab.means(Grid(make, g=range(8), seed=range(5)).run(cache=HERE / "cache"), over="seed")
flow = means.flow.unstack("density")
axes = plt.figure().gca()
mesh = axes.pcolormesh(flow.columns, flow.index, flow, cmap="viridis", rasterized=True)
axes.plot([1 / (6 + g) for g in flow.index], flow.index, "w--")
axes.set(xlabel="density (cars per cell)", ylabel="g (cells)", title="mean of 5 runs on 500 cells")
axes.figure.colorbar(mesh, label="flow (cars per step and lane)")
plt.savefig(HERE / "own_rule.svg", metadata={"Date": None, "Creator": None})
print(flow.T.iloc[3::4].round(3).to_string())
print(f"largest standard error: {means.flow_sem.max():.4f}")
