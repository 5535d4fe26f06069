"""Outputs of the program as they are read: their contents, changes to them, and texts that are not outputs."""
import pickle
import tempfile
import unittest
from typing import Any, Union

from tests.processes import replaced_program
from tests.skips import needs
from trlab import (
    Job, Nasch, OutputFormatError, Snapshot, Snapshots, SnapshotsError, Point, Rickert, Sweep, Table, Window,
)
from trlab import ParameterError, TrlabError, random_cells
from trlab._results.written import snapshots_in

ONE = Job(limit=12, length=30, cars=9, start=random_cells(3, None), rule=Nasch("1/4"), steps=120)
TWO = Job(limit=5, length=20, lanes=2, cars=15, start=random_cells(4), rule=Rickert("1/4", 1), steps=12)
HEADING = "cars,cells,steps,distance,stopped,changes,flow\n"
POINTS = HEADING + "1,10,1,5,0,0,500000\n2,10,1,3,1,0,300000\n"
RUN = "step 9\n0.1\nstep 10\n0.0\n"


class Tables(unittest.TestCase):
    def setUp(self) -> None:
        self.table = Table.read(Point, POINTS)
        self.rows = [
            Point(cars=1, cells=10, steps=1, distance=5, stopped=0, changes=0, flow_millionths=500000),
            Point(cars=2, cells=10, steps=1, distance=3, stopped=1, changes=0, flow_millionths=300000),
        ]

    def test_a_table_is_like_a_list(self) -> None:
        self.assertEqual(len(self.table), 2)
        self.assertEqual(repr(self.table), "<table of 2 Points>")
        self.assertEqual(self.table, self.rows)
        self.assertEqual(self.table[-1], self.rows[1])
        self.assertEqual(list(self.table), self.rows)
        self.assertEqual(self.rows, self.table)
        self.assertEqual([*reversed(self.table)], self.rows[::-1])
        self.assertEqual(self.table.index(self.rows[1]), 1)
        self.assertIn(self.rows[0], self.table)
        self.assertEqual(self.table.text(), POINTS)
        self.assertEqual(Table.read(Point, POINTS.encode()), self.table)
        self.assertEqual(Table.read(Point, HEADING), [])
        self.assertNotEqual(self.table, self.rows[:1])
        self.assertNotEqual(self.table, tuple(self.rows))
        self.assertRaises(IndexError, self.table.__getitem__, 2)

    def test_a_table_can_be_changed(self) -> None:
        new, same = self.rows[0]._replace(cars=3), self.table.copy()
        self.table.append(new)
        self.table.sort(key=lambda point: -point.cars)
        self.assertEqual(self.table, [new, self.rows[1], self.rows[0]])
        del self.table[1:]
        self.table[0] = self.rows[1]
        self.table.insert(0, new)
        self.table += self.rows[:1]
        self.assertEqual(self.table, [new, self.rows[1], self.rows[0]])
        self.assertEqual(Table.read(Point, self.table.text()), self.table)
        self.assertEqual(same, self.rows)
        self.assertEqual([new] + same, [new, *self.rows])
        copy = self.table.copy()
        copy.clear()
        self.assertEqual(len(self.table), 3)
        self.assertEqual(len(copy), 0)
        self.assertEqual(copy.kind, Point)

    def test_texts_that_are_not_tables(self) -> None:
        heading, first, second = POINTS.splitlines(True)
        for row in (
            "1,10,1,5,0,0\n", "1,10,1,5,0,0,0,0\n", "1,10,,5,0,0,0\n", ",10,1,5,0,0,0\n", "1,10,1,5,0,0,\n",
            "1,10,1,5,0,0,-1\n", "1,10,1,5,0,0,1.5\n", "1,10,1,5,0,0, 1\n", "fault\n", "\n", "1,10,1,5,0\n0,1\n",
        ):
            for place, text in (2, row + second), (3, first + row + second), (3, first + row):
                with self.assertRaisesRegex(ValueError, f"line {place} of the table is not a row of Points: '"):
                    Table.read(Point, heading + text)
        for text in "cars\n", POINTS[1:], "a" + POINTS:
            self.assertRaisesRegex(ValueError, "not the heading of Points: '", Table.read, Point, text)

    def test_a_table_that_is_cut_off(self) -> None:
        for end in range(len(POINTS)):
            text = POINTS[:end]
            if text.count("\n") and text.endswith("\n"):
                # Only the number of rows shows that a table lacks whole lines.
                self.assertEqual(len(Table.read(Point, text)), text.count("\n") - 1)
            else:
                self.assertRaisesRegex(ValueError, "cut off", Table.read, Point, text)

    def test_more_than_a_block(self) -> None:
        many = POINTS + 20000 * POINTS.removeprefix(HEADING)
        table = Table.read(Point, many.replace("\n", "\r\n"))
        self.assertEqual(table, 20001 * self.rows)
        self.assertEqual(table.text(), many)
        self.assertRaisesRegex(ValueError, "line 40004 of the table is not a row", Table.read, Point, many + "1,2\n")
        self.assertRaisesRegex(ValueError, "line 40004 of the table is cut off: '1,2'", Table.read, Point, many + "1,2")

    @needs("numpy")
    def test_the_array_of_a_table(self) -> None:
        copy, table = Table(Point, self.rows), self.table
        self.assertEqual(table.to_numpy().tolist(), [tuple(row) for row in self.rows])
        self.assertEqual(copy.to_numpy().dtype, table.to_numpy().dtype)
        self.assertEqual(copy.to_numpy().tolist(), table.to_numpy().tolist())
        table.to_numpy()["cars"] += 1
        table.append(self.rows[0])
        self.assertEqual(table.to_numpy()["cars"].tolist(), [1, 2, 1])
        empty_tables: list[Table[Any]] = [Table(Window), Table.read(Point, HEADING)]
        for empty in empty_tables:
            self.assertEqual(empty.to_numpy().shape, (0,))

    @needs("pandas")
    def test_the_frame_of_a_table(self) -> None:
        import numpy

        sweep = Sweep(limit=5, length=20, rule=Nasch("1/4"), warm=5, measure=9, cars=[0, 1, 7, 20]).sweep()
        tables: list[Table[Any]] = [sweep, Table(Point, list(sweep)), ONE.series(every=8), Table(Point)]
        for table in tables:
            frame = table.to_pandas()
            counts = [name for name in table.kind._fields if name != "flow_millionths"]
            self.assertEqual([*frame.columns], [*counts, "density", "flow", "speed", "stopped_share", "change_rate"])
            for name in frame.columns:
                numpy.testing.assert_array_equal(frame[name], [getattr(row, name) for row in table])


class Runs(unittest.TestCase):
    def test_the_snapshots_are_those_of_the_output(self) -> None:
        for job in ONE, TWO:
            snapshots, streamed = job.run(), list(job.snapshots())
            self.assertEqual(snapshots, streamed)
            self.assertEqual([snapshots[place] for place in range(len(snapshots))], streamed)
            self.assertEqual(Snapshots.read(snapshots.text()), streamed)
            self.assertEqual(Snapshots.read(snapshots.text().encode()), streamed)
            for part in slice(5, None), slice(None, -3), slice(1, 12, 4), slice(None, None, -1), slice(3, 3):
                self.assertEqual(snapshots[part], streamed[part])
                self.assertIs(type(snapshots[part]), Snapshots)
                self.assertEqual(pickle.loads(pickle.dumps(snapshots[part])), streamed[part])
                self.assertEqual(Snapshots.read(snapshots[part].text()), streamed[part])
            self.assertEqual(snapshots[-1], streamed[-1])
            self.assertEqual(snapshots[9:12][1], streamed[10])
            for place in len(snapshots), -len(snapshots) - 1:
                self.assertRaises(IndexError, snapshots.__getitem__, place)

    def test_snapshots_can_be_changed(self) -> None:
        snapshots, chosen = Snapshots.read(RUN), Snapshots()
        chosen.append(snapshots[1])
        chosen.extend(snapshots)
        snapshots.reverse()
        self.assertEqual(chosen, [snapshots[0], *snapshots[::-1]])
        self.assertEqual(snapshots, [Snapshot(10, ("0.0",)), Snapshot(9, ("0.1",))])
        self.assertEqual(Snapshots.read(RUN), snapshots[::-1])

    def test_steps_at_any_distance(self) -> None:
        for steps in [0], [7, 8, 9, 10, 11], [5, 55, 105], [1, 2, 5], [3, 2], [99, 1099, 2099]:
            snapshots = Snapshots([Snapshot(step, ("0..", ".1.")) for step in steps])
            self.assertEqual(Snapshots.read(snapshots.text()), snapshots)
        self.assertEqual(Snapshots.read(""), [])

    def test_texts_that_are_not_runs(self) -> None:
        for text, message in {
            "fault line 1 cause 1\n": "not the heading of a snapshot of a run: 'fault",
            "step x\n0.1\n": "not the heading of a snapshot of a run: 'step x'",
            "step 1\n0.1\nstep 2\n0.1.\n": "a lane of step 2 is not as long as the first lane of the run: '0.1.'",
            "step 1\n0.1\nstep 2\n0.1\n0.1\n": "not the heading of a snapshot of a run: '0.1'",
            "step 1\n0.1\nstep 2\nstep 3\n0.1\n": "a lane of step 2 is not .*: 'step 3'",
            "step 1\n0.1\n\nstep 2\n0.1\n": "a lane of step 1 is not .*: ''",
            "step 1\n0.1\n0.1\n0.1\n": "the first snapshot of the run has 3 lanes",
        }.items():
            self.assertRaisesRegex(ValueError, message, Snapshots.read, text)
            self.assertRaisesRegex(ValueError, message, list, snapshots_in(text.splitlines(True)))

    def test_characters_that_are_not_cells(self) -> None:
        for character in "?", "A", "\xe9", " ", "-":
            for place in RUN.index(".") + 0, len(RUN) - 3:
                text = RUN[:place] + character + RUN[place + 1:]
                line = RUN[:place].count("\n") + 1
                runs: list[Union[str, bytes]] = [text, text.encode("latin-1"), text.replace("\n", "\r\n")]
                for run in runs:
                    with self.assertRaisesRegex(
                        OutputFormatError, f"^line {line} of the run has a character that is neither"
                    ):
                        Snapshots.read(run)
        for run in (
            "step 0\n0.....\nstep 1\nstep 3\n", "step 0\nstep 3\nstep 1\n0.....\n", RUN + "step 11\n0\ud8001\n",
            RUN + "step 99\n0\xe91\n",
        ):
            self.assertRaisesRegex(OutputFormatError, "^line [246] of the run has a character", Snapshots.read, run)

    def test_a_run_that_is_cut_off(self) -> None:
        text = TWO.run().text()
        headings = [place for place in range(len(text) + 1) if text.startswith("step ", place)]
        for end in range(headings[1], len(text)):
            if end in headings:
                # Only the number of snapshots shows that a run lacks whole ones.
                self.assertEqual(len(Snapshots.read(text[:end])), headings.index(end))
            else:
                self.assertRaisesRegex(ValueError, "cut off in the snapshot of 's", Snapshots.read, text[:end])

    def test_a_program_that_cuts_its_output_off(self) -> None:
        job = Job(limit=5, length=3, cars=0, rule=Nasch(0), steps=1)
        for status in 0, 4:
            with tempfile.TemporaryDirectory() as folder:
                with replaced_program(folder, f"printf 'step 0\\n...\\nstep 1\\n..'; exit {status}\n"):
                    self.assertRaisesRegex(TrlabError, "wrote 3 of the 4 lines|ended with status 4", job.run)
                    self.assertRaisesRegex(
                        TrlabError, "wrote 3 of the 4 lines|ended with status 4", list, job.snapshots()
                    )

    @needs("numpy")
    def test_arrays_of_snapshots(self) -> None:
        import numpy

        for job in ONE, TWO:
            snapshots = job.run()
            copy = Snapshots([*snapshots])
            expected = [
                [[-1 if speed is None else speed for speed in lane] for lane in snapshot.speeds()]
                for snapshot in snapshots
            ]
            for result in snapshots, copy:
                array = result.speeds("int16", empty=-1)
                self.assertEqual(array.tolist(), expected)
                self.assertEqual(array.dtype, "int16")
                self.assertIs(array.flags.writeable, True)
                self.assertEqual(result.speeds().dtype, "float64")
                self.assertEqual(result.occupied().dtype, "bool")
                numpy.testing.assert_array_equal(result.speeds(), numpy.where(array < 0, numpy.nan, array))
                numpy.testing.assert_array_equal(result.occupied(), array >= 0)
            self.assertEqual(snapshots[2:99:3].speeds(int, empty=-9).tolist(), [
                [[-9 if v < 0 else v for v in lane] for lane in road] for road in expected[2:99:3]
            ])
        self.assertEqual(Snapshots().speeds().shape, (0, 0, 0))
        self.assertEqual(Snapshots().occupied().shape, (0, 0, 0))
        long = Job(limit=5, length=1000, cars=100, rule=Nasch("1/4"), steps=700).run()
        numpy.testing.assert_array_equal(long.speeds(), Snapshots([*long]).speeds())
        for character in "?", "A", "\xe9", "\n":
            self.assertRaisesRegex(
                OutputFormatError, "neither a speed nor a dot", Snapshots([Snapshot(0, (character,))]).speeds
            )
        self.assertRaisesRegex(
            SnapshotsError, "step 2 has another size", (Snapshots.read(RUN) + [Snapshot(2, ("0",))]).speeds
        )

    @needs("numpy")
    def test_arithmetic_with_speeds_does_not_overflow(self) -> None:
        import numpy

        snapshots = Job(limit=35, length=400, cars=10, start=random_cells(1, None), rule=Nasch("1/4"), steps=99).run()
        on_road = [speed for snapshot in snapshots for lane in snapshot.speeds() for speed in lane]
        all_speeds = [speed for speed in on_road if speed is not None]
        self.assertEqual(max(all_speeds), 35)
        for dtype, empty in (
            ("float64", None), ("float32", None), ("int16", -1), ("int32", -2), ("int64", -1), (int, -1),
        ):
            speeds, is_occupied = snapshots.speeds(dtype, empty=empty), snapshots.occupied()
            v = speeds[is_occupied]
            self.assertAlmostEqual(
                float((v * v).mean()), sum(speed * speed for speed in all_speeds) / len(all_speeds), places=3
            )
            self.assertEqual(float((v * 27).max()), 27 * 35)
            self.assertEqual(float((v - v[0]).min()), min(all_speeds) - all_speeds[0])
        self.assertTrue(numpy.isnan(snapshots.speeds().mean()))
        self.assertAlmostEqual(numpy.nanmean(snapshots.speeds()), sum(all_speeds) / len(all_speeds))
        for dtype, empty in (
            ("int8", -1), ("uint8", 255), ("uint16", -1), ("float16", None), (bool, -1), (complex, None), (object, -1),
            ("U1", -1),
            ("int64", None), ("int64", 0), ("int64", 35), ("int16", -32769), ("int64", True), ("float64", -1),
        ):
            with self.subTest(dtype=dtype, empty=empty):
                self.assertRaisesRegex(
                    ParameterError, "speeds need|need `empty`|empty must be", snapshots.speeds, dtype, empty=empty
                )

    @needs("pandas")
    def test_frames_of_snapshots(self) -> None:
        for snapshots in ONE.run(), TWO.run(), TWO.run()[::-2], TWO.run() + ONE.run(), Snapshots():
            expected = [
                [snapshot.step, lane, cell, speed]
                for snapshot in snapshots
                for lane, cells in enumerate(snapshot.speeds())
                for cell, speed in enumerate(cells)
                if speed is not None
            ]
            for frame in snapshots.to_pandas(), Snapshots([*snapshots]).to_pandas():
                self.assertEqual(frame.values.tolist(), expected)
                self.assertEqual([*frame.columns], ["step", "lane", "cell", "speed"])
                self.assertEqual({str(kind) for kind in frame.dtypes}, {"int64"})
