"""Exact solutions compared with trlab: small rings solved in fractions, and v_max = 1 on rings of any length.

About two minutes of CPU time; --full takes more and longer runs and solves all small rings in fractions."""
from fractions import Fraction
from statistics import NormalDist, fmean, stdev

import matplotlib.pyplot as plt
import numpy

import trlab
from trlab import Point, Sweep

from ..random_starts import from_random, last_steps, sweep_of
from ..study import Study, means, read_rows, with_error, write_rows
from .chain import MAX_STATES, Means, chain, first_state, stationary
from .closed import flow_of_long_ring, flow_of_ring
from .inputs import CHANCES, early_rings, from_stationary, inputs, long_rings, sweeps, walks
from .rings import RINGS, WALKS
from .sums import Sums
from .transitions import Verdict, counted, judged


def solved(is_full):
    """A row for each ring: its states, and the exact means per step. The flow is a fraction if it was found as one."""
    for ring in RINGS:
        found = chain(first_state(ring.length, ring.lanes, ring.cars), ring.model)
        means = stationary(found, 10**6 if is_full else MAX_STATES)
        flow = ring.flow(means.distance)
        fraction = str(flow) if isinstance(flow, Fraction) else ""
        yield [ring.name, len(found.rows), *(repr(float(mean)) for mean in means), fraction]


def verdict(walk):
    """The chi-square of a long run."""
    job, model = walk
    return judged(counted(snapshot.lanes for snapshot in job.snapshots()), model)


def run_small_rings(study):
    """Writes the inputs of the study and the tables of the small rings."""
    place = study.folder / "texts"
    place.mkdir(parents=True, exist_ok=True)
    for name, asked in inputs(study.is_full).items():
        (place / name).write_text(asked.text())
    write_rows(study.folder / "exact.csv", ["ring", "states", *Means._fields, "flow"], solved(study.is_full))
    asked = sweeps(study.is_full)
    sums = zip(asked, trlab.run_all(lambda sweep: Sums.of(sweep.sweep()), asked.values()))
    write_rows(study.folder / "table.csv", ["text", *Sums._fields], ([name, *row] for name, row in sums))
    found = ((name, verdict(walk)) for name, walk in walks(study.is_full).items())
    rows = ([name, f"{it.chi_square:.3f}", *it[1:]] for name, it in found)
    write_rows(study.folder / "transitions.csv", ["text", *Verdict._fields], rows)


def run_long_rings(study, asked, prefix=""):
    """The mean flow of long rings by initial state: frames by the name of the sweep. Writes their tables before."""
    call = last_steps(next(iter(asked.values())).measure)
    points = {
        "stationary": study.frame(f"{prefix}stationary.csv", Point, from_stationary(asked), call),
        "random": study.frame(f"{prefix}random.csv", Point, from_random(asked), call),
        "even": study.frame(f"{prefix}even.csv", Point, asked, Sweep.sweep),
    }
    found = {}
    for state, frame in points.items():
        sweep = frame.input if state == "even" else frame.input.map(sweep_of)
        of_sweeps = means(frame.assign(sweep=sweep), "sweep", "density", drawn=True)
        found[state] = of_sweeps.reset_index("density").loc[list(asked)]
    return found


def small_rings(folder):
    """Of each ring its states, exact means, exact flow if it is a fraction, and the sums of each key."""
    sums = [(name.rpartition("_key")[0], Sums(*map(int, row))) for name, *row in read_rows(folder / "table.csv")]
    for ring, (name, states, *numbers, flow) in zip(RINGS, read_rows(folder / "exact.csv")):
        yield ring, int(states), Means(*map(float, numbers)), flow, [row for text, row in sums if text == name]


def print_small_rings(folder):
    """A row of the page for each ring, with z of all its keys together. Returns z of the flow of each ring and key."""
    single = []
    for ring, states, solution, fraction, sums in small_rings(folder):
        total = sums[0].together(sums[1:])
        distance, error = total.mean("distance")
        exact = f"{fraction} = " if 0 < len(fraction) < 20 else ""
        cells = [ring.name, states, f"{exact}{ring.flow(solution.distance):.7f}"]
        cells.append(with_error(ring.flow(distance), ring.flow(error), 7))
        found = [total.z(name, getattr(solution, name)) for name in Means._fields]
        cells += ["" if z is None else f"{z:+.1f}" for z in found]
        print("|", " | ".join(map(str, cells)), "|")
        single += [row.z("distance", solution.distance) for row in sums]
    greatest = max(map(abs, single))
    print(f"- {len(single)} values of z: mean {fmean(single):+.2f}, standard deviation {stdev(single):.2f}, ", end="")
    print(f"maximum of the absolute values {greatest:.2f}.")
    return single


def print_walks(folder):
    """A row for each ring, with the chi-square of all its keys together. Returns the share below of each run."""
    rows = read_rows(folder / "transitions.csv")
    found = {name: Verdict(float(chi_square), *map(int, row)) for name, chi_square, *row in rows}
    for ring in WALKS:
        its = [it for name, it in found.items() if name.rpartition("_key")[0] == ring.name]
        total = Verdict(*(sum(column) for column in zip(*its)))
        z = NormalDist().inv_cdf(total.share_below())
        print(f"| {ring.name} | {total.chi_square:.0f} | {total.freedom} | {z:+.1f} | {total.impossible} |")
    return [it.share_below() for it in found.values()]


def exact_flow(name, sweep):
    """The exact flow of a long ring, and that of an infinite one."""
    p, (cars, *_) = CHANCES[name[2:5]], sweep.counts()
    return flow_of_ring(p, sweep.length, cars), flow_of_long_ring(p, cars / sweep.length)


def print_long_rings(asked, found):
    """A row for each long ring, with z from each initial state."""
    for name, sweep in asked.items():
        exact, infinite = exact_flow(name, sweep)
        cells = [name, f"{infinite:.6f}", f"{exact:.6f}"]
        for its in found.values():
            flow, sem = its.flow[name], its.flow_sem[name]
            cells.append(f"{with_error(flow, sem)} | {(flow - exact) / sem:+.1f}")
        print("|", " | ".join(cells), "|")


def print_early_rings(asked, found):
    """A row for each ring: how far the flow is above the exact one, in millionths, from each initial state."""
    for name, sweep in asked.items():
        exact, infinite = exact_flow(name, sweep)
        above = {state: 1e6 * (its.flow[name] - exact) for state, its in found.items()}
        cells = [name, *(f"{above[state]:+.0f} ± {1e6 * its.flow_sem[name]:.0f}" for state, its in found.items())]
        ratio, expected = above["random"] / above["even"], 1 - 1 / (1 - 2 * infinite)
        print("|", " | ".join(cells), f"| {ratio:.2f} | {expected:.2f} |")


def draw_shares(study, z, below):
    """Both tests: the share of results below each level against the share that is expected there."""
    wide = 1.358 / len(z) ** 0.5  # Kolmogorov's bound for 95 %
    band = [(0, 0), (0, wide), (1 - wide, 1), (1, 1), (1, 1 - wide), (wide, 0)]
    _, axes = plt.subplots()
    axes.fill(*zip(*band), color="0.9", label=f"95 % band of {len(z)} results")
    axes.plot([0, 1], [0, 1], "-", color="0.3", linewidth=1, label="as expected")
    results = {f"z of {len(z)} flows": [NormalDist().cdf(it) for it in z], f"chi-square of {len(below)} runs": below}
    for name, values in results.items():
        smaller = (numpy.arange(len(values)) + 0.5) / len(values)
        axes.plot(sorted(values), smaller, "o", markersize=3, label=name)
    axes.set(xlim=(0, 1), ylim=(0, 1), xlabel="expected share of smaller results", ylabel="share of smaller results")
    axes.legend()
    study.save(axes)


def draw_long_rings(study, found, length):
    """The exact flow for v_max = 1, which without randomization is the triangle, and the means of trlab from stationary initial
    states."""
    _, axes = plt.subplots()
    densities, counts = numpy.linspace(0, 1, 201), numpy.linspace(0, length, 201, dtype=int)
    triangle = [float(trlab.exact.triangle(1, density)) for density in densities]
    axes.plot(densities, triangle, "-", color="0.6", label="exact, p = 0")
    for number, (name, p) in enumerate(CHANCES.items()):
        flows = [trlab.exact.flow_as_float(length, cars, p) for cars in counts]
        axes.plot(counts / length, flows, "-", color=f"C{number}", label=f"exact, p = {p}")
        its = found[found.index.str.startswith(f"p_{name}")].set_index("density")
        trlab.plot_means(its, ax=axes, linestyle="none", color=f"C{number}", label="trlab, means ± standard error")
    axes.set(xlim=(0, 1), ylim=(0, 0.7))
    axes.legend(ncol=2, loc="upper center")
    study.save(axes, "long_rings.svg")


def main():
    study = Study.by_words(__file__, __doc__)
    if not study.is_drawn_only:
        run_small_rings(study)
    asked, early = long_rings(study.is_full), early_rings(study.is_full)
    found, found_early = run_long_rings(study, asked), run_long_rings(study, early, "early_")
    z, below = print_small_rings(study.folder), print_walks(study.folder)
    print_long_rings(asked, found)
    print_early_rings(early, found_early)
    draw_shares(study, z, below)
    draw_long_rings(study, found["stationary"], next(iter(asked.values())).length)


if __name__ == "__main__":
    main()
