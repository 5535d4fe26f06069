"""Units of columns, and cells and steps as metres and seconds."""
import unittest

import trlab
from tests.libraries import pandas
from trlab import FrameError, Grid, Job, Nasch, ParameterError, random_cells


def frame_of(**columns: object) -> pandas.DataFrame:
    return pandas.DataFrame({name: [value] for name, value in columns.items()})


class Units(unittest.TestCase):
    def test_every_column_has_a_unit(self) -> None:
        job = Job(limit=5, length=50, density=0.2, rule=Nasch(0.25), steps=40, start=random_cells(1))
        grid = Grid(
            lambda density, seed, key: Job(limit=5, length=50, density=density, rule=Nasch(0.25), steps=40, key=key),
            density=[0.11, 0.2], seed=range(2),
        )
        frame = grid.run(call=lambda job: job.series(every=20))
        runs = trlab.per_run(frame)
        for table in (
            frame, runs, trlab.to_si(runs), trlab.means(runs, "seed"), job.detectors([3], every=20),
            job.series().to_pandas(),
        ):
            for name in (*table, *table.index.names):
                if name not in ("key", "road", "ensemble", "seed", "lane", None):
                    self.assertIn(str(name).replace("_sem", ""), trlab.UNITS)

    def test_the_usual_values(self) -> None:
        converted = trlab.to_si(
            frame_of(density=1.0, flow=0.5, speed=1.0, flow_sem=0.01, time=60, change_rate=0.001, stopped_share=0.5)
        )
        expected = {
            "density_per_km": 1000 / 7.5, "flow_per_h": 1800, "speed_km_per_h": 27, "flow_per_h_sem": 36, "time_s": 60,
            "change_rate_per_h": 3.6, "stopped_share": 0.5,
        }
        self.assertEqual(set(converted), set(expected))
        for name, value in expected.items():
            self.assertAlmostEqual(converted[name][0], value)

    def test_another_scale(self) -> None:
        converted = trlab.to_si(
            frame_of(density=0.3, flow=0.25, speed=10, time_mean_speed=10, time_headway=4.0), cell=1.5, step=0.5
        )
        for name, value in {
            "density_per_km": 200, "flow_per_h": 1800, "speed_km_per_h": 108, "time_mean_speed_km_per_h": 108,
            "time_headway_s": 2,
        }.items():
            self.assertAlmostEqual(converted[name][0], value)

    def test_flow_is_density_times_speed_in_any_scale(self) -> None:
        series = Job(limit=5, length=100, cars=20, rule=Nasch(0.25), steps=200).series(every=100, first=100).to_pandas()
        for scale in {}, {"cell": 1.5, "step": 0.7}:
            converted = trlab.to_si(series, **scale)
            product = converted.density_per_km[0] * converted.speed_km_per_h[0]
            self.assertAlmostEqual(converted.flow_per_h[0], product)

    def test_levels_are_converted_too(self) -> None:
        frame = frame_of(p=0.5, density=0.1, flow=0.5).set_index(["p", "density"])
        converted = trlab.to_si(frame)
        self.assertEqual(list(converted.index.names), ["p", "density_per_km"])
        self.assertEqual(list(frame.index.names), ["p", "density"])

    def test_a_frame_is_converted_once(self) -> None:
        frame = frame_of(density=0.1, flow=0.5, x=1)
        once = trlab.to_si(frame)
        self.assertRaisesRegex(FrameError, "converted before", trlab.to_si, once, cell=5)
        self.assertRaisesRegex(FrameError, "converted before", trlab.to_si, once.assign(speed=1.0))
        self.assertRaisesRegex(FrameError, "converted before", trlab.to_si, once.set_index("density_per_km")[["x"]])
        self.assertRaisesRegex(FrameError, "has a unit to convert", trlab.to_si, frame[["x"]])

    def test_nothing_but_numbers_above_0(self) -> None:
        wrong_units: list[dict[str, float]] = [
            {"cell": 0}, {"step": -1}, {"cell": float("inf")}, {"step": float("nan")}, {"cell": True},
        ]
        for values in wrong_units:
            self.assertRaisesRegex(
                ParameterError, f"`{next(iter(values))}` must be", trlab.to_si, frame_of(flow=0.5), **values
            )


if __name__ == "__main__":
    unittest.main()
