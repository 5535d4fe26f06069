"""Plots on axes of matplotlib: style, scale and save them like any others."""
from __future__ import annotations

from typing import Any, Optional

from .._errors import FrameError, ParameterError
from .._inputs.numbers import MAX_SPEED, checked_int
from .._libraries import library
from .._results.snapshots import Snapshots
from .columns import as_numbers
from .required import numpy, pandas
from .units import label

HUES = [(122, 16, 22), (208, 66, 24), (243, 154, 46), (142, 196, 232), (76, 142, 200), (26, 86, 150)]
"""Red, green and blue of the colours of speeds, from 0 to the highest one, at equal distances: those of `trlab-lab`."""

_LINE = {"marker": "o", "markersize": 3, "linewidth": 1, "elinewidth": 1, "capsize": 2}


def plot_means(
    means: pandas.DataFrame, x: str = "density", y: str = "flow", hue: Optional[str] = None, ax: Any = None,
    **style: Any
) -> Any:
    """Draw the means `y` against the parameter `x`, with bars of one standard error to both sides, and return the axes:

        ax = trlab.plot_means(trlab.means(frame, over="seed"), hue="p")
        ax.figure.savefig("diagram.pdf")

    There is one curve for each value of the parameter `hue`. `ax` are axes of matplotlib, by default those of a new
    figure, and `style` is passed to `Axes.errorbar`, for example `marker="s"` or `linestyle="none"`. Labels have the
    units of `UNITS`.

    Raises `FrameError` if the frame has no errors (see `means`), if there are several means at one `x` without a `hue`,
    and if `ax` shows something else already."""
    _need_means(means, x, y)
    flat = means.reset_index()
    if hue is not None and hue not in flat:
        raise FrameError(f"{hue!r} is not a parameter of these means, which have {list(means.index.names)}")
    shown = [x] if hue is None else [x, hue]
    if flat.duplicated(shown).any():
        various = [name for name in means.index.names if name not in shown and flat[name].nunique() > 1]
        raise FrameError(f"there are several means at one {x}: select one value of {various}, or name it as `hue`")
    axes = _axes(ax, label(x), label(y))
    for value, curve in [(None, flat)] if hue is None else flat.groupby(hue, sort=False):
        curve = curve.sort_values(x, kind="stable")
        named = {} if hue is None else {"label": value}
        axes.errorbar(curve[x], curve[y], yerr=curve[f"{y}_sem"], **{**_LINE, **named, **style})
    if hue is not None:
        axes.legend(title=label(hue))
    return axes


def plot_space_time(
    snapshots: Snapshots, lane: int = 0, ax: Any = None, limit: Optional[int] = None, **style: Any
) -> Any:
    """Draw the space-time diagram of a lane and return the axes: the speed of the car in each cell (cells per step)
    against its position, with time running down. Stopped cars are dark red, fast ones blue, and empty cells white.

        ax = trlab.plot_space_time(job.run(every=10, first=1000))
        ax.figure.savefig("jams.png", dpi=200)

    `limit` is the highest speed of the scale, by default the highest speed of the snapshots: to compare diagrams, pass
    the limit of the job. `ax` are axes of matplotlib, by default those of a new figure, and `style` is passed to
    `Axes.imshow`. The image is `ax.images[-1]`, and its scale `ax.images[-1].colorbar`. A diagram shows every cell only
    if it has at least as many pixels: choose the figure size and `dpi` accordingly.

    Raises `ParameterError` unless the snapshots are at equal intervals of steps, which the time axis needs, and for a
    lane that the road does not have."""
    steps = [snapshot.step for snapshot in snapshots]
    intervals = {after - before for before, after in zip(steps, steps[1:])} or {1}
    if not steps or len(intervals) > 1 or min(intervals) < 1:
        raise ParameterError(
            "a space-time diagram needs snapshots at equal intervals of steps, as of `job.run(every=10)`"
        )
    # Empty cells are NaN, which matplotlib leaves white.
    speeds_by_lane = snapshots.speeds(dtype=numpy.float32)
    speeds = speeds_by_lane[:, checked_int("lane", lane, 0, speeds_by_lane.shape[1] - 1)]
    fastest = max(1, int(numpy.nanmax(speeds, initial=0)))
    highest = fastest if limit is None else checked_int("limit", limit, fastest, MAX_SPEED)
    axes = _axes(ax, "position (cells)", "time (steps)")
    # Each snapshot is a row of pixels, whose middle is at its step.
    half = min(intervals) / 2
    image = axes.imshow(speeds, **{
        "aspect": "auto", "interpolation": "nearest",
        "extent": (-0.5, speeds.shape[1] - 0.5, steps[-1] + half, steps[0] - half),
        "cmap": _colours_of_speeds(highest), "vmin": -0.5, "vmax": highest + 0.5,
        **style,
    })
    scale = axes.figure.colorbar(image, ax=axes, label=label("speed"))
    scale.set_ticks(range(0, highest + 1, 1 if highest < 10 else 5))
    return axes


def _colours_of_speeds(highest: int) -> Any:
    """A colour map with a colour for each speed from 0 to the highest one."""
    colours = [[part / 255 for part in colour] for colour in HUES]
    return library("matplotlib.colors").LinearSegmentedColormap.from_list("speeds", colours, highest + 1)


def _need_means(means: pandas.DataFrame, x: str, y: str) -> None:
    """Raises `FrameError` unless the frame has means with errors to draw."""
    if y not in means or f"{y}_sem" not in means:
        raise FrameError(
            f"this frame has no means `{y}` with errors `{y}_sem`: plot the frame that `trlab.means(frame, over)` "
            "returns, after `per_run` if it has windows"
        )
    if x not in (*means, *means.index.names):
        raise FrameError(f"{x!r} is not a parameter of these means, which have {list(means.index.names)}")
    values, errors = as_numbers(means[y]), as_numbers(means[f"{y}_sem"])
    if (numpy.isnan(errors) & ~numpy.isnan(values)).any():
        raise FrameError(
            f"some `{y}_sem` are NaN, because a single run has no error: repeat these runs, or leave them out with "
            "`means[means.n > 1]`"
        )


def _axes(ax: Any, across: str, up: str) -> Any:
    """The given axes or those of a new figure, with these labels. Raises `FrameError` if they have other ones."""
    axes = library("matplotlib.pyplot").subplots()[1] if ax is None else ax
    for old, new in (axes.get_xlabel(), across), (axes.get_ylabel(), up):
        if old not in ("", new):
            raise FrameError(
                f"these axes show {old}, not {new}: draw on other axes, and change labels after the last curve"
            )
    axes.set(xlabel=across, ylabel=up)
    return axes
