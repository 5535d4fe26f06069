"""Rows of tables: the values that follow from their counts, and impossible rows."""
import importlib.util
import math
import pickle
import sys
import unittest
from contextlib import AbstractContextManager
from typing import Union
from unittest import mock

from tests.by_pictures import windows
from tests.random_jobs import length_of, needs_hypothesis
from tests.skips import needs
from trlab import (
    Job, Nasch, OutputFormatError, Point, RenamedError, Rickert, Snapshots, SnapshotsError, Sweep, Table, Window,
    random_cells,
)
from trlab._results import possible
from trlab._results.tables import Row

if importlib.util.find_spec("numpy"):
    # Tables are checked by numpy if it is imported.
    import numpy  # noqa: F401

CHANGES = Window._fields.index("changes")
POINTS = "cars,cells,steps,distance,stopped,changes,flow\n"
WINDOWS = "step,cars,cells,steps,distance,stopped,changes,flow,cars0,distance0,stopped0,cars1,distance1,stopped1\n"
ROW = "4,20,10,60,8,0,300000\n"  # of POINTS
TWO_ROWS = "15,4,20,10,60,8,5,300000,30,40,3,10,20,5\n25,4,20,10,50,18,5,250000,30,30,13,10,20,5\n"  # of WINDOWS

LARGEST = 10**18 - 1
"""The largest number that a table can have."""


def changed(heading: str, row: str, **columns: int) -> str:
    """A row with other values in these columns."""
    values: dict[str, object] = dict(zip(heading.rstrip().split(","), row.rstrip().split(",")))
    return ",".join(map(str, {**values, **columns}.values())) + "\n"


def without_numpy() -> AbstractContextManager[object]:
    """Checks tables without numpy, as if it were not installed."""
    return mock.patch.dict(sys.modules, numpy=None)


def with_numpy() -> AbstractContextManager[object]:
    """Checks short tables by numpy too, if it is there."""
    return mock.patch.object(possible, "_FEW", 1)


class Values(unittest.TestCase):
    def test_each_value_is_the_ratio_of_its_formula(self) -> None:
        point = Point(cars=4, cells=20, steps=10, distance=60, stopped=8, changes=10, flow_millionths=300000)
        self.assertEqual(point.density, 4 / 20)
        self.assertEqual(point.flow, 60 / (20 * 10))
        self.assertEqual(point.speed, 60 / (4 * 10))
        self.assertEqual(point.stopped_share, 8 / (4 * 10))
        self.assertEqual(point.change_rate, 10 / (4 * 10))
        self.assertAlmostEqual(point.flow, point.density * point.speed)

    def test_flow_is_exact_and_that_of_the_file_is_rounded_down(self) -> None:
        for row in Sweep(limit=5, length=7, rule=Nasch(0), warm=5, measure=9, cars=[1, 3, 5]).sweep():
            # 7 cells in 9 steps
            self.assertEqual(row.flow, row.distance / 63)
            self.assertEqual(row.flow_millionths, row.distance * 10**6 // 63)

    def test_without_cars_there_is_no_speed(self) -> None:
        rows: list[Union[Point, Window]] = [
            Sweep(limit=5, length=7, rule=Nasch(0), warm=5, measure=9, cars=[0]).sweep()[0],
            Job(limit=5, length=7, cars=0, rule=Nasch(0), steps=3).series()[0],
        ]
        for row in rows:
            self.assertEqual(row.density, 0)
            self.assertEqual(row.flow, 0)
            self.assertTrue(all(map(math.isnan, (row.speed, row.stopped_share, row.change_rate))))

    def test_windows_are_those_of_the_snapshots(self) -> None:
        job = Job(limit=5, length=30, lanes=2, cars=20, start=random_cells(4), rule=Rickert(0.25, 1), steps=60, key=2)
        self.assertEqual(job.series(every=7, first=4), [*windows(job.run(), 7, 4)])

    def test_millionths_are_never_called_flow(self) -> None:
        table = Table.read(Point, POINTS + ROW)
        (point,) = table
        self.assertEqual(point._asdict()["flow_millionths"], 300000)
        self.assertNotIn("flow", point._asdict())
        self.assertEqual(table.text(), POINTS + ROW)
        self.assertNotIn("<td>flow</td>", table._repr_html_())

    @needs("pandas")
    def test_millionths_are_never_called_flow_in_arrays(self) -> None:
        tables: list[Union[Table[Point], Table[Window]]] = [
            Table.read(Point, POINTS + ROW), Table.read(Window, WINDOWS + TWO_ROWS),
        ]
        for table in tables:
            self.assertNotIn("flow", table.to_numpy().dtype.names)
            self.assertEqual(table.to_pandas()["flow"].tolist(), [row.flow for row in table])

    def test_old_names(self) -> None:
        table = Table.read(Point, POINTS + ROW)
        (point,) = table
        for value, name, new in (
            (point, "passing", "flow_millionths"), (table, "csv", "text.*millionths"),
            (table, "plot", "trlab.plot_means"),
            (Snapshots(), "to_numpy", "speeds"), (Snapshots(), "space_time", "trlab.plot_space_time"),
        ):
            with self.assertRaisesRegex(RenamedError, new):
                getattr(value, name)
        for value in point, table, Snapshots():
            self.assertRaisesRegex(AttributeError, "no .*'nothing'", getattr, value, "nothing")
            self.assertEqual(pickle.loads(pickle.dumps(value)), value)


class Impossible(unittest.TestCase):
    def reject(self, kind: type[Row], text: str, line: int, message: str) -> None:
        """A table is rejected because of this line, with numpy and without it."""
        for is_without in True, False:
            with without_numpy() if is_without else with_numpy():
                with self.assertRaisesRegex(OutputFormatError, f"^line {line} of the table is impossible: .*{message}"):
                    Table.read(kind, text)

    def test_impossible_points(self) -> None:
        self.assertEqual(len(Table.read(Point, POINTS + 2 * ROW)), 2)
        no_cars, no_motion = {"cars": 0, "distance": 0, "stopped": 0, "flow": 0}, {"distance": 0, "flow": 0}
        for columns, message in (
            ({**no_cars, "cells": 0, "steps": 0}, "a road has 1 to 200000 cells"),
            ({**no_cars, "cells": 200001, "steps": 1}, "a road has 1 to 200000 cells"),
            ({**no_motion, "steps": 0, "stopped": 0}, "at least 1 step"),
            ({**no_motion, "cars": 21, "stopped": 210}, "more cars than cells"),
            ({**no_motion, "stopped": 41}, "more stopped cars"),
            ({"cars": 1, "cells": 10, "steps": 100, "distance": 999, "stopped": 0, "flow": 999000},
             "no car drives further than its gap"),
            ({"cars": 3, "cells": 7, "stopped": 0, "flow": 857143}, "no car drives further than its gap"),
            ({"cars": 1, "cells": 100, "distance": 360, "stopped": 0, "flow": 360000}, "1 to 35 cells per step"),
            ({"distance": 31, "flow": 155000}, "1 to 35 cells per step"),
            ({"changes": 41}, "at most once per step"),
            ({"cells": 21, "changes": 1, "flow": 285714}, "only on a road of two lanes"),
            ({"flow": 299999}, "rounded down"), ({"flow": 300001}, "rounded down"),
            ({"cells": 7, "steps": 9, "distance": 26, "stopped": 12, "flow": 412699}, "rounded down"),
            ({"cars": LARGEST, "steps": LARGEST}, "more cars"), ({"flow": LARGEST}, "rounded down"),
            ({"steps": LARGEST, "distance": LARGEST, "flow": 50000}, "1 to 35"),
            # Products that overflow 64 bits, and would then fit: 4 car-steps, and a flow with 2**44 more.
            ({**no_motion, "cars": 20, "steps": (2**64 + 4) // 20, "stopped": 4}, "1 to 35"),
            ({"cells": 1024, "steps": 1024, "distance": 20480, "stopped": 0, "flow": 19531 + 2**44}, "rounded down"),
        ):
            row = changed(POINTS, ROW, **columns)
            self.reject(Point, POINTS + row + ROW, 2, message)
            self.reject(Point, POINTS + 3 * ROW + row, 5, message)

    def test_impossible_windows(self) -> None:
        self.assertEqual(len(Table.read(Window, WINDOWS + TWO_ROWS)), 2)
        first, second = TWO_ROWS.splitlines(True)
        for columns, message in (
            ({"cars0": 31}, "cars of both lanes must add up"), ({"distance0": 41}, "distances of both lanes"),
            ({"stopped1": 4}, "stopped cars of both lanes"), ({"distance0": 26, "distance1": 34}, "on each lane"),
            ({"distance0": 58, "distance1": 2}, "on each lane"), ({"cars0": 2, "cars1": 38}, "on each lane"),
            ({"step": 9}, "before step 0"), ({"flow": 400000}, "rounded down"),
        ):
            self.reject(Window, WINDOWS + changed(WINDOWS, first, **columns) + second, 2, message)
        half = {"steps": 5, "distance": 30, "stopped": 4, "flow": 300000}
        half_by_lane = {"cars0": 15, "distance0": 20, "stopped0": 2, "cars1": 5, "distance1": 10, "stopped1": 2}
        for row, message in (
            (first, "must follow the window before it"), (changed(WINDOWS, second, step=24), "must follow"),
            (changed(WINDOWS, second, step=26), "must follow"),
            (changed(WINDOWS, second, step=20, **half, **half_by_lane), "as many steps"),
            (changed(WINDOWS, second, cells=22, flow=227272), "other cars or cells"),
            (changed(WINDOWS, second, cars=5, cars0=40), "other cars or cells"),
        ):
            self.reject(Window, WINDOWS + first + row, 3, message)
            self.reject(Window, WINDOWS + first + row + second, 3, message)

    def test_forms_of_numbers(self) -> None:
        for row in (
            "04,20,10,60,8,0,300000", "4,20,10,60,8,00,300000", "4,20,10,60,8,0,0300000",
            "4,20,10,60,8,0," + 5000 * "3",
            "4,20,10,60,8,0,300000\r", "4\r,20,10,60,8,0,300000", "4,20,10,60,8,0,3e5", "+4,20,10,60,8,0,300000",
            "\u0664,20,10,60,8,0,3",
        ):
            for is_without in True, False:
                with without_numpy() if is_without else with_numpy():
                    for text in POINTS + ROW + row + "\n" + ROW, POINTS + ROW + row + "\n":
                        text = text.replace("\r\n", "\r")
                        with self.assertRaisesRegex(OutputFormatError, "^line 3 of the table "):
                            Table.read(Point, text)
        self.assertRaisesRegex(OutputFormatError, "heading", Table.read, Point, (POINTS + ROW).replace("\n", "\r"))
        self.assertEqual(Table.read(Point, (POINTS + ROW).replace("\n", "\r\n")), Table.read(Point, POINTS + ROW))
        self.assertRaisesRegex(
            OutputFormatError, "line 3 of the table is not a row", Table.read, Point,
            (POINTS + ROW).encode() + b"\xff\n",
        )


@needs_hypothesis
class OfTheProgram(unittest.TestCase):
    """Tables that the program writes are read, and changed ones are not."""

    def test_series_are_read(self) -> None:
        from hypothesis import given, strategies as some
        from tests.random_jobs import EXAMPLES, jobs

        @EXAMPLES
        @given(jobs(15), some.sampled_from([(1, 9), (2, 7), (3, 3), (5, 0)]), some.data())
        def read(job: Job, window: tuple[int, int], data: "some.DataObject") -> None:
            every, first = window
            table = job.series(every=every, first=first)
            text = table.text()
            with without_numpy():
                self.assertEqual(Table.read(Window, text), table)
            with with_numpy():
                self.assertEqual(Table.read(Window, text), table)
                self.assertEqual(Table.read(Window, text).text(), text)
            self.assertEqual(table, [*windows(job.run(), every, first)])
            # Every other number in a window between two others is rejected, except for the lane changes.
            rows = [list(row) for row in table]
            column = data.draw(some.sampled_from([*range(CHANGES), *range(CHANGES + 1, len(Window._fields))]))
            right = rows[1][column]
            rows[1][column] = data.draw(some.integers(0, 2 * right + 2).filter(lambda number: number != right))
            wrong = WINDOWS + "".join(",".join(map(str, row)) + "\n" for row in rows)
            for numpy_or_not in with_numpy, without_numpy:
                with numpy_or_not(), self.assertRaisesRegex(OutputFormatError, "^line [2-4] of the table is impossible"):
                    Table.read(Window, wrong)

        read()

    def test_sweeps_are_read(self) -> None:
        from hypothesis import given, strategies as some
        from tests.random_jobs import EXAMPLES, jobs

        @EXAMPLES
        @given(some.lists(jobs(0), min_size=1, max_size=4), some.integers(0, 9), some.integers(1, 20))
        def read(roads: list[Job], warm: int, measure: int) -> None:
            first = roads[0]
            length = length_of(first)
            cars = [road.count() for road in roads if road.count() <= length * first.lanes]
            # On two lanes some evenly spaced initial states have all cars on one lane, with a warning.
            with mock.patch("warnings.warn"):
                sweep = Sweep(
                    limit=first.limit, length=length, lanes=first.lanes, cars=cars, rule=first.rule, warm=warm,
                    measure=measure, key=first.key,
                )
                table = sweep.sweep()
            with without_numpy():
                self.assertEqual(Table.read(Point, table.text()), table)
            with with_numpy():
                self.assertEqual(Table.read(Point, table.text()), table)

        read()


class InNotebooks(unittest.TestCase):
    def test_a_table_shows_its_first_rows(self) -> None:
        table = Job(limit=5, length=9, cars=2, rule=Nasch(0), steps=40).series()
        shown = table._repr_html_()
        self.assertEqual(shown.count("<tr>"), 11)
        self.assertIn("table of 40 Windows", shown)

    def test_snapshots_show_their_first_cells(self) -> None:
        shown = Job(limit=5, length=300, cars=2, rule=Nasch(0), steps=40).run()._repr_html_()
        self.assertEqual(shown.count("\n"), 20)
        self.assertIn("&lt;41 snapshots of 1 x 300 cells", shown)
        self.assertLess(max(map(len, shown.splitlines())), 120)

    def test_a_page_plays_all_steps(self) -> None:
        snapshots = Job(limit=5, length=30, cars=2, rule=Nasch(0), steps=40).run()
        self.assertIn("<html", snapshots.html())
        for part, step in (snapshots[:9] + snapshots[20:], 9), (snapshots[::2], 1), (snapshots[1:], 0):
            with self.assertRaisesRegex(SnapshotsError, f"that of step {step} is missing"):
                part.html()
