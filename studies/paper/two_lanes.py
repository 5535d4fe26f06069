"""Two lanes: how often cars change lanes, and how the lanes are used if drivers return to lane 0 whenever there is room."""
from pathlib import Path

import matplotlib.pyplot as plt

import trlab
from trlab import Grid, Job, Own, Rickert, random_cells

HERE = Path(__file__).parent
plt.style.use(HERE.parent / "figures.mplstyle")
NASCH = (HERE.parents[1] / "examples" / "nasch.rule").read_text()  # p = 1/2


@trlab.change
def return_to_lane_0(car):
    wanted = car.speed + 1
    wants = car.lane == 1 or car.gap < wanted  # on lane 0 only if the car is hindered
    return car.side and wants and car.sidegap > wanted and car.sideback > car.limit


RULES = {"both lanes alike": Rickert("1/2", 1), "return to lane 0": Own(NASCH, return_to_lane_0)}


def make(rule, density, seed, key):
    return Job(limit=5, length=1000, lanes=2, density=density, rule=rule, steps=6000, start=random_cells(key), key=key)


grid = Grid(make, rule=RULES, density=[0.02, 0.05, 0.08, 0.1, 0.15, 0.2, 0.3, 0.4, 0.5], seed=range(5))
runs = grid.run(call=lambda job: job.series(every=4000, first=2000), cache=HERE / "cache").droplevel("step")
runs["share_on_lane_0"] = runs.cars0 / (runs.cars0 + runs.cars1)
means = trlab.means(runs, over="seed")

figure, panels = plt.subplots(1, 3, figsize=(12, 4))
for axes, column in zip(panels, ["flow", "change_rate", "share_on_lane_0"]):
    trlab.plot_means(means, y=column, hue="rule", ax=axes)
    axes.set(xlim=(0, 0.52), ylim=(0, None))
panels[2].set(ylabel="share of cars on lane 0", ylim=(0, 1))
figure.suptitle("means ± standard error, 5 runs on two lanes of 1000 cells")
figure.savefig(HERE / "two_lanes.svg", metadata={"Date": None, "Creator": None})
shown = means[means.index.isin([0.02, 0.08, 0.2, 0.5], level="density")]
for column in "flow", "change_rate", "share_on_lane_0":
    print(shown[[column, f"{column}_sem"]].unstack("rule").round(4).to_string())
