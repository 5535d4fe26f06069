"""Results as arrays and frames, if numpy and pandas are installed."""
import unittest
from dataclasses import replace

from tests.skips import needs
from trlab import Job, Nasch, Sweep


JOB = Job(limit=12, start=[[11, None, 0], [None, None, 1]], rule=Nasch(0), steps=1)
SWEEP = Sweep(limit=5, length=10, rule=Nasch(0), warm=10, measure=10, cars=[0, 1, 10])


class Arrays(unittest.TestCase):
    @needs("numpy")
    def test_speeds_of_snapshots(self) -> None:
        speeds = JOB.run().speeds("int16", empty=-1)
        self.assertEqual(speeds.tolist(), [[[11, -1, 0], [-1, -1, 1]], [[-1, 1, 0], [-1, 2, -1]]])
        self.assertEqual(replace(JOB, start=speeds[0]).text(), JOB.text())
        self.assertEqual(Job(limit=12, start=speeds[0, 0], rule=Nasch(0), steps=1).run()[0].lanes, ("b.0",))

    @needs("numpy")
    def test_columns_of_tables(self) -> None:
        self.assertEqual(SWEEP.sweep().to_numpy()["flow_millionths"].tolist(), [0, 500000, 0])


class Frames(unittest.TestCase):
    @needs("pandas")
    def test_a_row_for_each_car(self) -> None:
        cars = JOB.run().to_pandas().values.tolist()
        self.assertEqual(cars[:3], [[0, 0, 0, 11], [0, 0, 2, 0], [0, 1, 2, 1]])
        self.assertEqual(len(cars), 6)

    @needs("pandas")
    def test_a_row_for_each_point(self) -> None:
        self.assertEqual(SWEEP.sweep().to_pandas()["flow"].tolist(), [0, 0.5, 0])
