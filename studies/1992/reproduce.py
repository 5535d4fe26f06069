"""The fundamental diagram of Nagel and Schreckenberg (1992): v_max = 5, p = 1/2, a ring of 10000 cells.

About 13 minutes of CPU time, half of them for random initial states. --full measures 1,600,000 steps per density, in
two hours or more of it."""
import matplotlib.pyplot as plt

import trlab
from trlab import Nasch, Point, Sweep

from ..random_starts import from_random, last_steps
from ..study import Study, difference, frame_of, means, page_row, read_tables, signed, with_error

LENGTH, BRAKE, WARM, MEASURE = 10000, "1/2", 10000, 20000
DENSITIES = [0.02, 0.04, 0.06, 0.07, 0.075, 0.08, 0.0825, 0.085, 0.0875, 0.09, 0.095, 0.1, 0.11, 0.12, 0.15]
DENSITIES += [0.2, 0.25, 0.3, 0.4, 0.5, 0.6, 0.7, 0.8, 0.9]
SHOWN = [0.02, 0.06, 0.08, 0.0875, 0.1, 0.2, 0.4, 0.8]  # the densities of the page
# The maximum flow and its density, with their errors, as commonly quoted from the paper.
PUBLISHED = {"x": 0.086, "xerr": 0.002, "y": 0.318, "yerr": 0.0005}


def inputs(is_full):
    """A sweep for each density and key: each of its points is a repetition."""
    keys, points = (5, 16) if is_full else (1, 5)
    shape = {"limit": 5, "length": LENGTH, "rule": Nasch(BRAKE), "warm": WARM, "measure": MEASURE}
    return {
        f"{density}_key{key}": Sweep(**shape, densities=points * [density], key=1000 * key + place)
        for place, density in enumerate(DENSITIES)
        for key in range(1, keys + 1)
    }


def random_inputs(is_full):
    """The same from random initial states, a job for each repetition."""
    return from_random(inputs(is_full))


def dots():
    """The same diagram by 100 short measurements, of 100 steps each, at rising densities."""
    shape = {"limit": 5, "length": LENGTH, "rule": Nasch(BRAKE), "warm": 1000, "measure": 100}
    return {"dots": Sweep(**shape, densities=[0.005 * (place + 1) for place in range(100)], key=1)}


def full_frame(file, all_inputs):
    """A table of --full that is kept next to the short ones. It may have only some of the inputs."""
    tables = read_tables(file, Point)
    return frame_of({name: all_inputs[name] for name in tables}, tables)


def write_comparison(study, even, at_random, name):
    """Writes a row for each density: both means with their standard errors, and z of the difference."""
    z = difference(even, at_random).z
    rows = []
    for density in even.index:
        known = [its.loc[density] if density in its.index else None for its in (even, at_random)]
        flows = [("", "") if its is None else (f"{its.flow:.6f}", f"{its.flow_sem:.6f}") for its in known]
        rows.append([density, *flows[0], *flows[1], signed(z[density])])
    study.write_means("density even even_sem random random_sem z", rows, name)


def print_comparison(even, at_random, long):
    """Prints rows of the page: both means, z of the difference, and the mean of the long runs from even initial states."""
    z = difference(even, at_random).z
    for density in SHOWN:
        flows = [with_error(its.flow[density], its.flow_sem[density]) for its in (even, at_random, long)]
        print(page_row([density, *flows[:2], signed(z[density]), flows[2]]))


def maximum(name, frame):
    """A row of the page: the largest mean, and the peak of the curve through the means near it."""
    found = means(frame, "density")
    density = found.flow.idxmax()
    peak = trlab.peak(frame.set_index(["density", "input"]), over="input")
    return (f"| {name} | {found.flow[density]:.5f} ± {found.flow_sem[density]:.5f} | {density} "
            f"| {peak.y:.5f} ± {peak.y_sem:.5f} | {peak.x:.4f} ± {peak.x_sem:.4f} |")


def draw(study, short, found):
    """The short measurements, the means, and the maximum flow of the paper."""
    _, axes = plt.subplots()
    axes.plot(short.density, short.flow, ".", markersize=3, label="100 steps each")
    trlab.plot_means(found, ax=axes, linestyle="none", label="means ± standard error, random initial states")
    axes.errorbar(**PUBLISHED, fmt="s", label="maximum flow as quoted ± its error")
    axes.set(xlim=(0, 0.92), ylim=(0, 0.36))
    axes.legend()
    top = axes.inset_axes([0.2, 0.09, 0.36, 0.36])
    near = short[short.density.between(0.07, 0.11)]
    top.plot(near.density, near.flow, ".", markersize=3)
    trlab.plot_means(found.loc[0.07:0.11], ax=top, linestyle="none")
    top.errorbar(**PUBLISHED, fmt="s")
    top.set(xlim=(0.067, 0.113), xlabel="", ylabel="", title="around the maximum")
    study.save(axes)


def main():
    study = Study.by_words(__file__, __doc__)
    even = study.frame("table.csv", Point, inputs(study.is_full), Sweep.sweep)
    short = study.frame("dots.csv", Point, dots(), Sweep.sweep)
    at_random = study.frame("random.csv", Point, random_inputs(study.is_full), last_steps(MEASURE))
    even_means, random_means = means(even, "density"), means(at_random, "density")
    write_comparison(study, even_means, random_means, "means.csv")
    long_means = even_means
    if not study.is_full:
        full = {"full_table.csv": inputs(True), "full_random.csv": random_inputs(True)}
        frames = [full_frame(study.folder / file, all_inputs) for file, all_inputs in full.items()]
        long_means, long_random_means = (means(frame, "density") for frame in frames)
        write_comparison(study, long_means, long_random_means, "full_means.csv")
    print_comparison(even_means, random_means, long_means)
    for name, frame in ("even", even), ("random", at_random):
        print(maximum(f"{name}, {len(frame) // len(DENSITIES) * MEASURE:,} steps", frame))
    draw(study, short, random_means)


if __name__ == "__main__":
    main()
