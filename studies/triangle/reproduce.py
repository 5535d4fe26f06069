"""How the fundamental diagram leaves the exact triangle as p grows from 0: v_max = 5, 3000 cells.

About four minutes of CPU time; --full takes rings of 30000 cells."""
from fractions import Fraction

import matplotlib.pyplot as plt

import trlab
from trlab import Nasch, Point, Sweep, even, random_cells

from ..random_starts import from_random, jobs_of, last_steps, sweep_of
from ..study import Study, difference, draw_z, means, page_row, signed, with_error

LIMIT = 5
# A multiple of 6, so that the top of the triangle, at density 1/6, is a whole number of cars.
LENGTH, WARM, MEASURE = 3000, 4000, 4000
CHANCES = ["0", "1/1024", "1/256", "1/64", "1/16", "1/4", "1/2"]
DENSITIES = ["1/30", "1/15", "1/10", "2/15", "3/20", "1/6", "11/60", "1/5", "7/30", "3/10", "2/5", "3/5", "4/5"]
REPETITIONS = 4
SETTLING = {"1/1024": "1/10", "1/256": "1/15"}  # a density for each of these p
DISTANT = ["1/30", "1/10", "1/6", "2/5", "4/5"]  # the densities of the figure of distances
# The densities of the page.
SHOWN = [float(Fraction(density)) for density in ["1/30", "1/10", "3/20", "1/6", "1/5", "2/5", "4/5"]]


def inputs(is_full):
    """A sweep for each braking probability: each density, REPETITIONS times."""
    length = 10 * LENGTH if is_full else LENGTH
    shape = {"limit": LIMIT, "length": length, "warm": WARM, "measure": MEASURE, "densities": REPETITIONS * DENSITIES}
    return {
        f"brake_{chance.replace('/', '_')}": Sweep(**shape, rule=Nasch(chance), key=place)
        for place, chance in enumerate(CHANCES)
    }


def random_inputs(is_full):
    """The same from random initial states, a job for each repetition."""
    return from_random(inputs(is_full))


def settling():
    """Two roads at small p, from both initial states, in runs of three lengths: each measures its second half."""
    shape = {"limit": LIMIT, "length": LENGTH}
    return {
        f"brake_{chance.replace('/', '_')}_warm_{warm}_{name}": Sweep(
            **shape, rule=Nasch(chance), warm=warm, measure=warm, densities=REPETITIONS * [density], start=start, key=77
        )
        for chance, density in SETTLING.items()
        for warm in (4000, 40000, 200000)
        for name, start in (("even", even), ("random", random_cells(77)))
    }


def second_half(job):
    """The counts of the second half of a run."""
    return last_steps(job.steps // 2)(job)


def triangle(density):
    """The flow without randomization."""
    return min(LIMIT * density, 1 - density)


def below(density, flow):
    """How far a mean flow is below the triangle."""
    return f"{round(triangle(density) - flow, 5) + 0:.5f}"


def report_distances(study, from_even, at_random):
    """Writes a row for each p and density: the distances from both initial states, and z of their difference. Prints a row of
    the page for each p: some distances from random states, with their standard errors in units of the last digit."""
    rows = []
    for chance in CHANCES:
        even_means, random_means = from_even[chance], at_random[chance]
        z = difference(even_means, random_means).z
        for density in even_means.index:
            cells = []
            for means_of_state in even_means, random_means:
                cells += [below(density, means_of_state.flow[density]), f"{means_of_state.flow_sem[density]:.6f}"]
            rows.append([chance, f"{density:.4f}", *cells, signed(z[density])])
        distances = []
        for density, point in random_means.iterrows():
            if min(abs(density - shown) for shown in SHOWN) < 1e-9:
                distances.append(f"{below(density, point.flow)}({round(point.flow_sem * 100000)})")
        print(page_row([chance, *distances]))
    study.write_means("p density even_below even_sem random_below random_sem z", rows)


def print_settling(frame):
    """A row of the page for each p and number of steps of `settling`: the flows from both initial states."""
    found = means(frame.assign(sweep=frame.input.map(sweep_of)), "sweep", "density").reset_index("density")
    for name in settling():
        if name.endswith("_even"):
            _, top, bottom, _, warm, _ = name.split("_")
            from_even, from_random = found.loc[name], found.loc[f"{name.removesuffix('_even')}_random"]
            flows = [with_error(point.flow, point.flow_sem, 7) for point in (from_even, from_random)]
            print(page_row([f"{top}/{bottom}", f"{from_even.density:.4f}", warm, *flows]))


def means_by_chance(frame, name_of_sweep=str):
    """The mean flows for each p, by density."""
    chance = [name_of_sweep(name).removeprefix("brake_").replace("_", "/") for name in frame.input]
    found = means(frame.assign(chance=chance), "chance", "density")
    return {chance: found.loc[chance] for chance in CHANCES}


def draw(study, found):
    """The triangle with the means below it, and how their distances from it grow with p."""
    figure, (axes, distances) = plt.subplots(1, 2, figsize=(10, 4.4))
    corners = [0, 1 / (LIMIT + 1), 1]
    axes.plot(corners, [triangle(density) for density in corners], "-", color="0.6", linewidth=1, label="p = 0, proved")
    for number, (p, curve) in enumerate(found.items()):
        colour = "black" if number == 6 else f"C{number}"
        trlab.plot_means(curve, ax=axes, linestyle="none", capsize=0, color=colour, label=f"p = {p}")
    axes.set(xlim=(0, 1), ylim=(0, 0.9), title="means ± standard error, random initial states")
    axes.legend()
    draw_distances(distances, found)
    study.save(axes)


def nearest_point(curve, density):
    """The mean of a curve at the density that is nearest to this one."""
    return curve.loc[min(curve.index, key=lambda measured: abs(measured - density))]


def draw_distances(axes, found):
    """The distances at some densities against p, with logarithmic scales: a distance in proportion to p is a diagonal."""
    p = [float(Fraction(chance)) for chance in CHANCES[1:]]
    for shown in DISTANT:
        density = float(Fraction(shown))
        points = [nearest_point(found[chance], density) for chance in CHANCES[1:]]
        distances, errors = [triangle(density) - point.flow for point in points], [point.flow_sem for point in points]
        axes.errorbar(p, distances, yerr=errors, marker="o", label=f"density {shown}")
    axes.set(xscale="log", yscale="log", xlabel="p", ylabel="distance below the triangle (cars per step)")
    axes.set(xticks=p, xticklabels=CHANCES[1:])
    axes.minorticks_off()
    axes.legend()


def main():
    study = Study.by_words(__file__, __doc__)
    from_even = means_by_chance(study.frame("table.csv", Point, inputs(study.is_full), Sweep.sweep))
    points = study.frame("random.csv", Point, random_inputs(study.is_full), last_steps(MEASURE))
    at_random = means_by_chance(points, sweep_of)
    report_distances(study, from_even, at_random)
    z = {f"p = {chance}": difference(from_even[chance], at_random[chance]).z for chance in CHANCES[1:]}
    draw_z(study, z, "flow from even and from random initial states", top=0.82)
    print_settling(study.frame("settling.csv", Point, jobs_of(settling()), second_half))
    draw(study, at_random)


if __name__ == "__main__":
    main()
