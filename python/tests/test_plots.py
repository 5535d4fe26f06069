"""Plots: the contents of the axes of matplotlib, and the arguments that are rejected."""
import io
import unittest
from typing import Any

import trlab
from tests.libraries import numpy, pyplot
from trlab import FrameError, Grid, Job, Nasch, ParameterError, Rickert, Snapshots, random_cells

TWO = Job(limit=5, length=30, lanes=2, cars=25, start=random_cells(4), rule=Rickert("1/4", 1), steps=60).run()


def job(p: float, density: float, seed: int, key: int) -> Job:
    return Job(limit=5, length=50, density=density, rule=Nasch(p), start=random_cells(key), steps=30, key=key)


class Plots(unittest.TestCase):
    windows: Any
    runs: Any
    means: Any

    @classmethod
    def setUpClass(cls) -> None:
        cls.windows = Grid(job, p=[0.25, 0.5], density=[0.4, 0, 0.1, 0.2], seed=range(3)).run(
            call=lambda job: job.series(every=10)
        )
        cls.runs = trlab.per_run(cls.windows)
        cls.means = trlab.means(cls.runs, "seed")

    def tearDown(self) -> None:
        pyplot.close("all")


class Diagrams(Plots):
    def test_points_bars_and_labels(self) -> None:
        axes = trlab.plot_means(self.means, hue="p")
        self.assertEqual(axes.get_xlabel(), "density (cars per cell)")
        self.assertEqual(axes.get_ylabel(), "flow (cars per step and lane)")
        self.assertEqual([text.get_text() for text in axes.get_legend().get_texts()], ["0.25", "0.5"])
        self.assertEqual(axes.get_legend().get_title().get_text(), "p")
        for p, container in zip([0.25, 0.5], axes.containers):
            curve = self.means.xs(p, level="p").sort_index()
            line, _, (bars,) = container
            numpy.testing.assert_array_equal(line.get_xdata(), curve.index)
            numpy.testing.assert_array_equal(line.get_ydata(), curve.flow)
            ends = numpy.array(bars.get_segments())[:, :, 1]
            numpy.testing.assert_allclose(
                ends, numpy.transpose([curve.flow - curve.flow_sem, curve.flow + curve.flow_sem]), atol=1e-12
            )
        axes.figure.savefig(io.BytesIO())

    def test_units_of_roads(self) -> None:
        axes = trlab.plot_means(trlab.to_si(self.means), x="density_per_km", y="speed_km_per_h", hue="p")
        self.assertEqual(axes.get_xlabel(), "density (vehicles per km and lane)")
        self.assertEqual(axes.get_ylabel(), "speed (km/h)")
        axes = trlab.plot_means(trlab.to_si(self.means), x="density_per_km", y="flow_per_h", hue="p")
        self.assertEqual(axes.get_ylabel(), "flow (vehicles per h and lane)")

    def test_axes_and_style_of_the_user(self) -> None:
        figure, axes = pyplot.subplots()
        means = self.means.xs(0.25, level="p")
        drawn = trlab.plot_means(means, ax=axes, marker="s", color="red", label="mine", capsize=0)
        self.assertIs(drawn, axes)
        line = axes.containers[0][0]
        self.assertEqual(line.get_marker(), "s")
        self.assertEqual(line.get_color(), "red")
        self.assertEqual(axes.containers[0].get_label(), "mine")
        self.assertIs(trlab.plot_means(self.means.xs(0.5, level="p"), ax=axes), axes)
        self.assertEqual(len(axes.containers), 2)
        self.assertIsNot(trlab.plot_means(means), trlab.plot_means(means))

    def test_one_axis_shows_one_thing(self) -> None:
        means = self.means.xs(0.25, level="p")
        axes = trlab.plot_means(means)
        self.assertRaisesRegex(FrameError, "show flow", trlab.plot_means, means, y="speed", ax=axes)
        self.assertRaisesRegex(
            FrameError, "show density", trlab.plot_means, trlab.to_si(means), x="density_per_km", y="flow_per_h",
            ax=axes,
        )
        self.assertRaisesRegex(FrameError, "show density", trlab.plot_space_time, TWO, ax=axes)

    def test_frames_that_are_not_means(self) -> None:
        for frame in (
            self.windows, self.runs, self.means[["flow"]], self.means.drop(columns="flow"),
            self.runs.groupby(["p", "density"]).mean(numeric_only=True),
        ):
            self.assertRaisesRegex(FrameError, r"trlab.means\(frame, over\)", trlab.plot_means, frame, hue="p")
        self.assertRaisesRegex(
            FrameError, r"several means at one density: select one value of \['p'\]", trlab.plot_means, self.means
        )
        self.assertRaisesRegex(FrameError, "'q' is not a parameter", trlab.plot_means, self.means, hue="q")
        self.assertRaisesRegex(
            FrameError, "'length' is not a parameter", trlab.plot_means, self.means, x="length", hue="p"
        )
        single = trlab.means(self.runs.xs(0, level="seed", drop_level=False), "seed")
        self.assertRaisesRegex(FrameError, "a single run has no error", trlab.plot_means, single, hue="p")


class SpaceTimes(Plots):
    def test_every_car_is_drawn_in_its_cell(self) -> None:
        part = TWO[21::3]
        axes = trlab.plot_space_time(part, lane=1, limit=7)
        (image,) = axes.images
        speeds = [[-1 if cell == "." else int(cell) for cell in snapshot.lanes[1]] for snapshot in part]
        drawn: Any = image.get_array()
        # The image masks empty cells, or has NaN there.
        drawn = drawn.filled(-1) if hasattr(drawn, "filled") else numpy.nan_to_num(drawn, nan=-1)
        numpy.testing.assert_array_equal(drawn, speeds)
        self.assertEqual(axes.get_xlabel(), "position (cells)")
        self.assertEqual(axes.get_ylabel(), "time (steps)")
        self.assertEqual(axes.get_xlim(), (-0.5, 29.5))
        self.assertEqual(axes.get_ylim(), (61.5, 19.5))
        self.assertEqual(image.colorbar.ax.get_ylabel(), "speed (cells per step)")
        self.assertEqual(image.get_clim(), (-0.5, 7.5))
        self.assertEqual(len({image.cmap(image.norm(speed)) for speed in range(8)}), 8)
        axes.figure.savefig(io.BytesIO())

    def test_style_of_the_user(self) -> None:
        axes = trlab.plot_space_time(TWO, cmap="magma", interpolation="none", ax=pyplot.subplots()[1])
        self.assertEqual(axes.images[0].get_cmap().name, "magma")

    def test_roads_without_cars_and_single_snapshots(self) -> None:
        empty = Job(limit=5, length=9, cars=0, rule=Nasch(0), steps=3).run()
        for snapshots in empty, TWO[:1], Job(limit=5, length=1, cars=1, rule=Nasch(0), steps=3).run():
            trlab.plot_space_time(snapshots).figure.savefig(io.BytesIO())

    def test_results_without_a_diagram(self) -> None:
        for snapshots in Snapshots(), Snapshots([TWO[0], TWO[1], TWO[3]]), TWO[::-1]:
            self.assertRaisesRegex(ParameterError, "equal intervals", trlab.plot_space_time, snapshots)
        for options in {"lane": 2}, {"lane": -1}, {"limit": 1}, {"limit": 36}:
            self.assertRaisesRegex(ValueError, "(lane|limit) must be between", trlab.plot_space_time, TWO, **options)


if __name__ == "__main__":
    unittest.main()
