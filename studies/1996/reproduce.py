"""Two lanes and one lane, after Rickert, Nagel, Schreckenberg and Latour (1996): v_max = 5, p = 1/2.

About five minutes of CPU time; --full takes ten repetitions, and changes lanes also with probability 1/2."""
from dataclasses import replace

import matplotlib.pyplot as plt

import trlab
from trlab import Nasch, Point, Rickert, Sweep

from ..random_starts import from_random, last_steps, sweep_of
from ..study import Study, difference, draw_z, largest, means, page_row, signed, with_error

LENGTH, BRAKE = 5000, "1/2"  # cells of each of two lanes; the road of one lane has as many cells as both together
WARM, MEASURE = 4000, 6000
DENSITIES = [0.02, 0.04, 0.06, 0.07, 0.08, 0.085, 0.09, 0.1, 0.11, 0.12, 0.14, 0.16, 0.2, 0.25, 0.3, 0.4]
LANES = {"one_lane": (1, Nasch(BRAKE)), "two_lanes": (2, Rickert(BRAKE, 1))}
IN_FULL = {"two_lanes_half": (2, Rickert(BRAKE, 0.5))}
SHOWN = ["0.0201", "0.0601", "0.0801", "0.0851", "0.1001", "0.1401", "0.2001", "0.4001"]  # the densities of the page
REPETITIONS, RANDOM_REPETITIONS, FULL_REPETITIONS = 3, 6, 10


def odd(density):
    """The odd number of cars next to a density: it does not divide the length, so that cars start on both lanes."""
    return int(density * 2 * LENGTH) // 2 * 2 + 1


def inputs(is_full):
    """A sweep for each kind of road and each density: each of its points is a repetition."""
    points = FULL_REPETITIONS if is_full else REPETITIONS
    kinds = {**LANES, **IN_FULL} if is_full else LANES
    return {
        f"{name}_{density}": Sweep(
            limit=5,
            length=LENGTH * 2 // lanes,
            lanes=lanes,
            rule=rule,
            warm=WARM,
            measure=MEASURE,
            cars=points * [odd(density)],
            key=100 * number + place,
        )
        for number, (name, (lanes, rule)) in enumerate(kinds.items())
        for place, density in enumerate(DENSITIES)
    }


def random_inputs(is_full):
    """The same from random initial states, a job for each repetition."""
    points = FULL_REPETITIONS if is_full else RANDOM_REPETITIONS
    return from_random({name: replace(it, cars=points * it.cars[:1]) for name, it in inputs(is_full).items()})


def means_by_kind(frame, name_of_sweep=str):
    """The mean flow and lane changes per car and step, by kind of road and density."""
    kind = [name_of_sweep(name).rpartition("_")[0] for name in frame.input]
    found = means(frame.assign(kind=kind), "kind", "density", of=["flow", "change_rate"])
    return {name: found.loc[name] for name in dict.fromkeys(kind)}


def print_maxima(found):
    """The maxima that the page cites."""
    on_two = list(found)[1:]
    for name, its in found.items():
        print(f"{name}: maximum flow per lane {largest(its, '.4f')}")
    for name in on_two:
        print(f"{name}: most changes per car and step {largest(found[name], '.4f', of='change_rate')}")


def columns(found):
    """The columns of means and standard errors, and the gain of a second lane in percent, by density."""
    on_two = list(found)[1:]
    for density in found["one_lane"].index:
        flows = [mean_and_error(found[name], density) for name in found]
        gain = 100 * (found["two_lanes"].flow[density] / found["one_lane"].flow[density] - 1)
        changes = [mean_and_error(found[name], density, of="change_rate") for name in on_two]
        yield f"{density:.4f}", flows, f"{gain:.1f}", changes


def mean_and_error(found, density, of="flow"):
    """The mean at a density and its standard error."""
    return found[of][density], found[f"{of}_sem"][density]


def report_means(study, kinds):
    """Writes a row for each initial state and density. Prints some of those from random states as rows of the page."""
    rows = []
    for start, found in kinds.items():
        for density, flows, gain, changes in columns(found):
            rows.append([start, density, *(f"{number:.5f}" for both in flows + changes for number in both), gain])
            if start == "random" and density in SHOWN:
                shown = [[with_error(*both, 5) for both in numbers] for numbers in (flows, changes)]
                print(page_row([density, *shown[0], f"{gain} %", *shown[1]]))
    on_two = [f"{name}_changes" for name in list(found)[1:]]
    names = " ".join(f"{name} {name}_sem" for name in [*found, *on_two])
    study.write_means(f"start density {names} gain_percent", rows)


def report_bias(study, even, at_random):
    """Draws and writes for each density the even means less the random ones, with the same in standard errors."""
    found = {name: difference(even[name], at_random[name]) for name in even}
    found["two_lanes_changes"] = difference(even["two_lanes"], at_random["two_lanes"], of="change_rate")
    rows = [
        [f"{density:.4f}", *(text for its in found.values() for text in signed_difference(its.loc[density]))]
        for density in even["one_lane"].index
    ]
    names = " ".join(f"{name} {name}_sem {name}_z" for name in found)
    study.write_means(f"density {names}", rows, "bias_means.csv")
    shown_z = {name.replace("_changes", ": lane changes").replace("_", " "): its.z for name, its in found.items()}
    draw_z(study, shown_z, "flow per lane, and lane changes per car and step", top=0.42)


def signed_difference(its):
    """A difference, its standard error, and their ratio, as text."""
    value, sem, z = its[["value", "sem", "z"]]
    return f"{value:+.5f}", f"{sem:.5f}", signed(z)


def draw(study, found):
    """Flow per lane, and lane changes per car and step, against density."""
    _, axes = plt.subplots()
    for name, its in found.items():
        trlab.plot_means(its, ax=axes, linestyle="none", label=name.replace("_", " "))
    axes.set(xlim=(0, 0.42), ylim=(0, 0.4), title="means ± standard error, random initial states")
    axes.legend()
    study.save(axes, "flow.svg")
    _, axes = plt.subplots()
    for name, its in list(found.items())[1:]:
        trlab.plot_means(its, y="change_rate", ax=axes, linestyle="none", color=f"C{list(found).index(name)}",
                         label=name.replace("_", " "))
    axes.set(xlim=(0, 0.42), ylim=(0, None), title="means ± standard error, random initial states")
    axes.legend()
    study.save(axes, "changes.svg")


def main():
    study = Study.by_words(__file__, __doc__)
    even = means_by_kind(study.frame("table.csv", Point, inputs(study.is_full), Sweep.sweep))
    points = study.frame("random.csv", Point, random_inputs(study.is_full), last_steps(MEASURE))
    at_random = means_by_kind(points, sweep_of)
    for found in even, at_random:
        print_maxima(found)
    report_means(study, {"random": at_random, "even": even})
    report_bias(study, even, at_random)
    draw(study, at_random)


if __name__ == "__main__":
    main()
