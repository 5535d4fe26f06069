"""One file for a study, from which a colleague gets the same numbers, to the last bit."""
from pathlib import Path

import matplotlib.pyplot as plt
import pandas

import trlab
from trlab import Grid, Nasch, Sweep, random_cells

HERE = Path(__file__).parent
plt.style.use(HERE.parent / "figures.mplstyle")
FILE = HERE / "cache" / "study.trlab"


def make(p, seed, key):
    return Sweep(limit=5, length=200, densities=[0.05, 0.1, 0.2, 0.4], warm=200, measure=500, rule=Nasch(p), key=key,
                 start=random_cells(key))


# You: run the study, and save it.
grid = Grid(make, p=[0.1, 0.3], seed=range(4))
FILE.parent.mkdir(exist_ok=True)
grid.save(FILE)
mine = grid.run()

# Your colleague: needs the file, and this version of trlab.
theirs = trlab.read_study(FILE).run()
pandas.testing.assert_frame_equal(mine, theirs, check_exact=True)
axes = trlab.plot_means(trlab.means(theirs, over="seed"), hue="p")
axes.set(xlim=(0, 0.42), ylim=(0, 0.7), title="means ± standard error, 4 runs on 200 cells")
plt.savefig(HERE / "study_file.svg", metadata={"Date": None, "Creator": None})
print(len(theirs), "rows; the same bytes:", theirs.to_csv() == mine.to_csv())
