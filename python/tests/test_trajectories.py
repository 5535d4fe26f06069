"""Trajectories, compared with laws of the model, tables of `trlab series`, and slower counts from snapshots."""
import math
import unittest
from collections.abc import Iterator, Sequence
from dataclasses import replace
from typing import TYPE_CHECKING, NamedTuple

import trlab
from tests.by_pictures import windows
from tests.random_jobs import length_of, needs_hypothesis
from tests.skips import needs
from trlab import Job, Nasch, Own, ParameterError, Rickert, SlowToStart, Snapshot, Snapshots, SnapshotsError, jammed
from trlab import random_cells
from trlab._inputs.states import SPEEDS

if TYPE_CHECKING:
    from trlab._results.trajectories import Trajectories

Place = tuple[int, int, int]
"""The row of a snapshot, and the lane and the cell of a car there."""

HALF_OF_THE_GAP = "motion\nget r0, gap\ndiv r0, r0, 2\nget r1, limit\nmin r0, r0, r1\ngo r0\n"
"""A rule with which cars drive at most half of their gap."""

# The last roads of ONE_LANE have no gaps, or no cars, and the last one of TWO_LANES has no lane changes. Tests leave out
# the roads for which their law does not hold, or says nothing.
ONE_LANE = [
    Job(limit=5, length=40, cars=15, start=random_cells(1), rule=Nasch(0.25), steps=60, key=7),
    Job(limit=3, length=25, cars=20, start=random_cells(2), rule=SlowToStart("1/64", 0.75), steps=50, key=1),
    Job(limit=12, length=50, cars=4, start=jammed, rule=Own(HALF_OF_THE_GAP), steps=60, at={30: Nasch(0.5)}),
    Job(limit=5, length=8, cars=1, start=random_cells(3), rule=Nasch(0.5), steps=40),
    Job(limit=5, length=9, cars=9, rule=Nasch(0), steps=3),
    Job(limit=1, length=1, cars=1, rule=Nasch(0), steps=3),
    Job(limit=1, length=1, cars=0, rule=Nasch(0), steps=3),
]
TWO_LANES = [
    Job(limit=5, length=30, lanes=2, cars=20, start=random_cells(4), rule=Rickert(0.25, 1), steps=60, key=2),
    Job(limit=2, length=12, lanes=2, cars=17, start=random_cells(5, None), rule=Rickert("1/3", 0.5), steps=60, key=3),
    Job(limit=5, length=40, lanes=2, cars=9, start=random_cells(6), rule=Rickert(0.5, 1), steps=60, key=4),
    Job(limit=5, length=20, lanes=2, cars=11, start=random_cells(7), rule=Nasch(0.25), steps=30, key=5),
]


def speeds_at(snapshot: Snapshot, lane: int) -> dict[int, int]:
    """The speed of the car in each taken cell."""
    return {cell: SPEEDS.index(character) for cell, character in enumerate(snapshot.lanes[lane]) if character != "."}


def turned_cells(snapshots: Sequence[Snapshot]) -> list[list[int]]:
    """The cells of the cars of one lane by step, only from their order: sorted, and rotated by the laps begun since."""
    laps = 0
    rows: list[list[int]] = []
    for snapshot in snapshots:
        speeds = speeds_at(snapshot, 0)
        laps += sum(cell < speed for cell, speed in speeds.items()) if rows else 0
        cells = sorted(speeds)
        rows.append([cells[(car + laps) % len(cells)] for car in range(len(cells))])
    return rows


def stopped_neighbours(snapshots: Sequence[Snapshot], row: int, lane: int, cell: int) -> Iterator[Place]:
    """The places next to that of a stopped car, ahead and behind, and those that the same car may have one step later if
    it is stopped. Other cars or none may be there."""
    length, lanes = len(snapshots[0].lanes[0]), len(snapshots[0].lanes)
    yield row, lane, (cell + 1) % length
    yield row, lane, (cell - 1) % length
    if row + 1 < len(snapshots):
        yield row + 1, lane, cell
        side = lanes - 1 - lane
        # The car changed lanes if there is a car in its side cell now, and was none before.
        if snapshots[row].lanes[side][cell] == "." and snapshots[row + 1].lanes[side][cell] == "0":
            yield row + 1, side, cell


def components(snapshots: Sequence[Snapshot]) -> Iterator[set[Place]]:
    """The sets of stopped cars that are connected: by painting one after the other."""
    stopped = {
        (row, lane, cell)
        for row, snapshot in enumerate(snapshots)
        for lane, cells in enumerate(snapshot.lanes)
        for cell, character in enumerate(cells)
        if character == "0"
    }
    links: dict[Place, set[Place]] = {place: set() for place in stopped}
    for place in stopped:
        for neighbour in set(stopped_neighbours(snapshots, *place)) & stopped:
            links[place].add(neighbour)
            links[neighbour].add(place)
    while stopped:
        component: set[Place] = set()
        border = {stopped.pop()}
        while border:
            component |= border
            border = {neighbour for place in border for neighbour in links[place]} - component
        stopped -= component
        yield component


def trips(snapshots: Sequence[Snapshot], start: int, end: int) -> Iterator[tuple[int, int, int]]:
    """The trips on one lane between the ends of two cells, as the fields of `trlab.Trip`: from every cell whose end a
    car passed, one after the other."""
    passages: dict[int, list[tuple[int, int]]] = {}
    cells = turned_cells(snapshots)
    length = len(snapshots[0].lanes[0])
    for row in range(1, len(snapshots)):
        speeds = speeds_at(snapshots[row], 0)
        for car, cell in enumerate(cells[row]):
            for back in range(speeds[cell], 0, -1):
                passages.setdefault(car, []).append((row, (cell - back) % length))
    for car, marks in passages.items():
        for place, (row, cell) in enumerate(marks):
            later = [other_row for other_row, other_cell in marks[place + 1:] if other_cell == end]
            if cell == start and later:
                yield car, snapshots[0].step + row, later[0] - row


def passed(paths: "Trajectories", cell: int, lane: int = 0) -> list[int]:
    """The number of cars that pass the end of a cell of a lane in each step after the first row."""
    length = paths.length
    return [
        sum(1 for x, own_lane, v in zip(cells, lanes, speeds) if (x - 1 - cell) % length < v and own_lane == lane)
        for cells, lanes, speeds in list(zip(paths.cell.tolist(), paths.lane.tolist(), paths.speed.tolist()))[1:]
    ]


@needs("numpy")
class Paths(unittest.TestCase):
    def test_two_cars(self) -> None:
        job = Job(limit=5, start=[0, None, 0, *7 * [None]], rule=Nasch(0), steps=4)
        paths = job.run().trajectories()
        self.assertEqual([list(row) for row in paths.cell], [[0, 2], [1, 3], [2, 5], [4, 8], [7, 2]])
        self.assertEqual([list(row) for row in paths.distance], [[0, 2], [1, 3], [2, 5], [4, 8], [7, 12]])
        self.assertEqual([list(row) for row in paths.speed], [[0, 0], [1, 1], [1, 2], [2, 3], [3, 4]])
        self.assertEqual([list(row) for row in paths.gaps()], [[1, 7], [1, 7], [2, 6], [3, 5], [4, 4]])
        self.assertEqual(passed(paths, 4), [0, 1, 0, 1])
        self.assertEqual(passed(paths, 9), [0, 0, 0, 1])
        self.assertEqual(paths.travel_times(1, 3), [trlab.Trip(car=0, start=2, time=1)])
        # Both cars are stopped in the first snapshot only.
        jam = trlab.Jam(first=0, lifetime=1, cars=1, size=1, is_older=True, is_censored=False)
        self.assertEqual(paths.jams(), [jam, jam])
        self.assertEqual(repr(paths), "<trajectories of 2 cars, steps 0 to 4>")
        self.assertEqual(len(paths), 5)
        self.assertEqual(paths.cars, 2)

    def test_a_jam_dissolves(self) -> None:
        # Three cars start one after the other, each two steps after the car ahead of it.
        paths = Job(limit=5, start=[0, 0, 0, *20 * [None]], rule=Nasch(0), steps=9).run().trajectories()
        jam = trlab.Jam(first=0, lifetime=3, cars=3, size=3 + 2 + 1, is_older=True, is_censored=False)
        self.assertEqual(paths.jams(), [jam])
        self.assertEqual(Job(limit=5, start=[5, *9 * [None]], rule=Nasch(0), steps=9).run().trajectories().jams(), [])

    def test_paths_are_those_of_the_snapshots(self) -> None:
        for job in ONE_LANE + TWO_LANES:
            snapshots = job.run()
            paths = snapshots.trajectories()
            for row, snapshot in enumerate(snapshots):
                places_of_paths = sorted(zip(paths.lane[row], paths.cell[row], paths.speed[row]))
                places_of_snapshot = [
                    (lane, cell, speed)
                    for lane in range(len(snapshot.lanes)) for cell, speed in sorted(speeds_at(snapshot, lane).items())
                ]
                self.assertEqual(places_of_paths, places_of_snapshot)
                self.assertEqual([distance % paths.length for distance in paths.distance[row]], list(paths.cell[row]))
                if row:
                    driven = [now - then for now, then in zip(paths.distance[row], paths.distance[row - 1])]
                    self.assertEqual(driven, list(paths.speed[row]))

    def test_no_car_overtakes_on_one_lane(self) -> None:
        for job in ONE_LANE[:3]:
            snapshots = job.run()
            paths = snapshots.trajectories()
            self.assertEqual([list(row) for row in paths.cell], turned_cells(snapshots))
            for places in 0, 1, 3, paths.cars + 1:
                ahead = [(car + places) % paths.cars for car in range(paths.cars)]
                self.assertTrue(all(list(row) == ahead for row in paths.ahead(places)))

    def test_gaps_follow(self) -> None:
        for job in ONE_LANE[:5]:
            paths = job.run().trajectories()
            gaps, leaders = paths.gaps(), paths.ahead()
            for row in range(1, len(paths)):
                for car, leader in enumerate(leaders[row]):
                    before, speed = gaps[row - 1][car], paths.speed[row]
                    self.assertEqual(gaps[row][car] + speed[car], before + speed[leader])

    def test_gaps_of_two_lanes_are_empty_cells(self) -> None:
        for job in TWO_LANES:
            snapshots = job.run()
            paths = snapshots.trajectories()
            for row, gaps in enumerate(paths.gaps()):
                for lane, cell, gap in zip(paths.lane[row], paths.cell[row], gaps):
                    road = snapshots[row].lanes[lane]
                    ahead = road[cell + 1:] + road[:cell + 1]
                    self.assertEqual(gap, len(ahead) - len(ahead.lstrip(".")))

    def test_totals_are_those_of_the_series(self) -> None:
        for job in ONE_LANE + TWO_LANES:
            paths = job.run().trajectories()
            moved = [
                (lane, speed) for row in range(1, len(paths)) for lane, speed in zip(paths.lane[row], paths.speed[row])
            ]
            changes = sum(int((before != after).sum()) for before, after in zip(paths.lane, paths.lane[1:]))
            (window,) = job.series(every=job.steps)
            self.assertEqual(window.distance, sum(speed for _, speed in moved))
            self.assertEqual(window.changes, changes)
            for lane in 0, 1:
                speeds = [speed for lane_of_car, speed in moved if lane_of_car == lane]
                self.assertEqual(len(speeds), getattr(window, f"cars{lane}"))
                self.assertEqual(sum(speeds), getattr(window, f"distance{lane}"))
                self.assertEqual(speeds.count(0), getattr(window, f"stopped{lane}"))

    def test_all_detectors_count_the_distance(self) -> None:
        for job in ONE_LANE[:4] + TWO_LANES:
            paths = job.run().trajectories()
            for lane in range(job.lanes):
                counts = [passed(paths, cell, lane) for cell in range(length_of(job))]
                self.assertLessEqual({number for row in counts for number in row}, {0, 1})
                distances = [sum(step) for step in zip(*counts)]
                self.assertEqual(distances, [getattr(row, f"distance{lane}") for row in job.series()])

    def test_continuity_between_two_detectors(self) -> None:
        for job in [*ONE_LANE[:3], TWO_LANES[3]]:
            paths, length = job.run().trajectories(), length_of(job)
            for lane in range(job.lanes):
                for first, second in (0, 7), (length - 2, 5):
                    between = {cell % length for cell in range(first + 1, second + 1 + length * (second < first))}
                    cars = [
                        sum(cell in between and own_lane == lane for cell, own_lane in zip(cells, lanes))
                        for cells, lanes in zip(paths.cell, paths.lane)
                    ]
                    steps = zip(cars, cars[1:], passed(paths, first, lane), passed(paths, second, lane))
                    for before, after, entered, left in steps:
                        self.assertEqual(after + left, before + entered)

    def test_jams_are_painted_areas(self) -> None:
        for job in ONE_LANE + TWO_LANES:
            for snapshots in job.run(), job.run()[2:]:
                areas = []
                for area in components(snapshots):
                    rows = [row for row, _, _ in area]
                    is_older, is_censored = min(rows) == 0, max(rows) == len(snapshots) - 1
                    areas.append(
                        (snapshots[min(rows)].step, max(rows) - min(rows) + 1, len(area), is_older, is_censored)
                    )
                jams = snapshots.trajectories().jams()
                areas_of_jams = [(jam.first, jam.lifetime, jam.size, jam.is_older, jam.is_censored) for jam in jams]
                self.assertEqual(sorted(areas_of_jams), sorted(areas))
                self.assertEqual([jam.first for jam in jams], sorted(jam.first for jam in jams))

    def test_cars_of_jams(self) -> None:
        for job in ONE_LANE[:3]:
            snapshots = job.run()
            cars = {
                (row, cell): car for row, cells in enumerate(turned_cells(snapshots)) for car, cell in enumerate(cells)
            }
            areas = [len({cars[row, cell] for row, _, cell in area}) for area in components(snapshots)]
            self.assertEqual(sorted(jam.cars for jam in snapshots.trajectories().jams()), sorted(areas))

    def test_travel_times_are_those_of_single_cells(self) -> None:
        count = 0
        for job in ONE_LANE[:4]:
            snapshots = job.run()[3:]
            paths = snapshots.trajectories()
            for start, end in (0, length_of(job) - 1), (length_of(job) - 1, 0), (3, 3), (6, 2):
                expected = sorted(trips(snapshots, start, end))
                self.assertEqual(sorted(paths.travel_times(start, end)), expected)
                count += len(expected)
        self.assertGreater(count, 100)

    def test_travel_times_agree_with_detectors_on_two_lanes(self) -> None:
        for job in TWO_LANES:
            paths = job.run().trajectories()
            starts = [sum(both) for both in zip(*(passed(paths, 4, lane) for lane in range(2)))]
            ends = [sum(both) for both in zip(*(passed(paths, 9, lane) for lane in range(2)))]
            trips = paths.travel_times(4, 9)
            for row in range(1, len(paths)):
                self.assertLessEqual(sum(trip.start == row for trip in trips), starts[row - 1])
                self.assertLessEqual(sum(trip.start + trip.time == row for trip in trips), ends[row - 1])
            # A car is between the detectors at the end if its trip is not over.
            inside = sum(4 < cell <= 9 for cell in paths.cell[-1])
            self.assertEqual(sum(starts) - len(trips), inside)

    def test_speed_correlations(self) -> None:
        paths = ONE_LANE[0].run().trajectories()
        for places, later in (0, 0), (1, 0), (2, 3), (0, 5):
            pairs = [
                (int(paths.speed[row][car]), int(paths.speed[row + later][(car + places) % paths.cars]))
                for row in range(1, len(paths) - later)
                for car in range(paths.cars)
            ]
            means = [sum(column) / len(pairs) for column in zip(*pairs)]
            moments = [
                sum((pair[a] - means[a]) * (pair[b] - means[b]) for pair in pairs) for a, b in ((0, 1), (0, 0), (1, 1))
            ]
            self.assertAlmostEqual(
                paths.speed_correlation(places, later), moments[0] / math.sqrt(moments[1] * moments[2])
            )
        self.assertEqual(paths.speed_correlation(), 1)
        # The speeds of the initial state are not a result.
        start, *others = ONE_LANE[0].run()
        with_other_start = Snapshots([Snapshot(0, (start.lanes[0].replace("0", "5"),)), *others])
        self.assertEqual(with_other_start.trajectories().speed_correlation(1, 1), paths.speed_correlation(1, 1))
        self.assertTrue(math.isnan(ONE_LANE[0].run()[:1].trajectories().speed_correlation()))
        self.assertTrue(math.isnan(ONE_LANE[6].run().trajectories().speed_correlation()))

    def test_numbers_out_of_range(self) -> None:
        paths = ONE_LANE[0].run().trajectories()
        for call in (
            lambda: paths.time_headways(40), lambda: paths.time_headways(-1), lambda: paths.time_headways(0, 1),
            lambda: paths.ahead(-1),
            lambda: paths.travel_times(0, 40), lambda: paths.speed_correlation(0, 60),
            lambda: paths.speed_correlation(0, -1),
            lambda: paths.speed_correlation(-1),
            lambda: paths.time_headways(1.5),  # type: ignore[arg-type]
        ):
            self.assertRaisesRegex(ParameterError, "(cell|lane|places|end|later) must be", call)

    def test_other_snapshots_are_rejected(self) -> None:
        snapshots = ONE_LANE[0].run()
        for wrong_snapshots in (
            Snapshots([*snapshots[:2], snapshots[3]]), snapshots[:2] + snapshots[3:], snapshots[1::2], snapshots[::-1],
        ):
            with self.assertRaisesRegex(SnapshotsError, "step [0-9]+ follows step [0-9]+, and "):
                wrong_snapshots.trajectories()
        for wrong_snapshots, message in (
            (Snapshots(), "no snapshots"),
            (Snapshots([Snapshot(0, ("0..",)), Snapshot(1, ("0...",))]), "step 1 has another size"),
            (Snapshots([Snapshot(0, ("0..",)), Snapshot(1, ("0..", "..."))]), "step 1 has another size"),
            (Snapshots([Snapshot(0, ("0..", "...", "..."))]), "step 0 has 3 lanes"),
            (Snapshots([Snapshot(0, ("0..", ".."))]), "step 0 has another size"),
            (Snapshots([Snapshot(0, ("0..",)), Snapshot(1, ("?..",))]), "a cell of step 1 has a character"),
            (Snapshots([Snapshot(0, ("0..",)), Snapshot(1, ("0.0",))]), "the cars of step 1 do not come"),
            (Snapshots([Snapshot(0, ("0..",)), Snapshot(1, ("...",))]), "the cars of step 1 do not come"),
            (Snapshots([Snapshot(0, ("...",)), Snapshot(1, ("0..",))]), "the cars of step 1 do not come"),
            (Snapshots([Snapshot(7, ("0..",)), Snapshot(8, (".1.",)), Snapshot(9, ("..0",))]),
             "the cars of step 9 do not come"),
            (Snapshots([Snapshot(0, ("0.0",)), Snapshot(1, (".12",))]), "the cars of step 1 do not come"),
            (Snapshots([Snapshot(0, ("0..", "...")), Snapshot(1, ("..0", "..."))]), "the cars of step 1 do not come"),
            (Snapshots([Snapshot(0, ("0.0", "...")), Snapshot(1, (".1.", ".1."))]), "the cars of step 1 do not come"),
        ):
            with self.assertRaisesRegex(SnapshotsError, message):
                wrong_snapshots.trajectories()

    def test_cars_that_drive_further_than_their_gaps_are_rejected(self) -> None:
        for before, after in (
            ("0.", "2."),  # round the ring to its own cell
            ("0..", ".4."),
            ("0.0..", "1...4"),  # over the car ahead
            ("00...", ".11.."),  # into the cell of the car ahead
            (".0..0", "11..."),
        ):
            snapshots = Snapshots([Snapshot(0, (before, 5 * ".")), Snapshot(1, (after, 5 * "."))])
            for wrong in snapshots, Snapshots([Snapshot(snapshot.step, snapshot.lanes[:1]) for snapshot in snapshots]):
                with self.assertRaisesRegex(SnapshotsError, "do not come from|another size"):
                    wrong.trajectories()
        good = Snapshots([Snapshot(0, ("0..",)), Snapshot(1, ("..2",)), Snapshot(2, (".2.",))])
        self.assertEqual(good.trajectories().distance.tolist(), [[0], [2], [4]])

    def test_a_car_that_changes_lanes(self) -> None:
        snapshots = Snapshots(
            [Snapshot(0, ("1...", "0.0.")), Snapshot(1, ("..2.", ".1.1")), Snapshot(2, ("1...", "20.."))]
        )
        paths = snapshots.trajectories()
        self.assertEqual([list(row) for row in paths.lane], [[0, 1, 1], [0, 1, 1], [1, 1, 0]])
        self.assertEqual([list(row) for row in paths.cell], [[0, 0, 2], [2, 1, 3], [0, 1, 0]])
        self.assertEqual(paths.changes().tolist(), [0, 2])
        self.assertEqual(paths.change_rate(), 2 / 6)

    def test_space_headways_are_one_more_than_gaps(self) -> None:
        for job in ONE_LANE[:6]:
            paths = job.run().trajectories()
            self.assertTrue((paths.space_headways() == paths.gaps() + 1).all())
            # On one lane they add up to the ring, so that their mean is 1 / density.
            self.assertEqual({*paths.space_headways().sum(axis=1).tolist()}, {job.length})

    def test_time_headways_are_the_steps_between_cars(self) -> None:
        number = 0
        for job in ONE_LANE[:5] + TWO_LANES:
            paths = job.run().trajectories()
            for lane in range(job.lanes):
                for cell in 0, 4, length_of(job) - 1:
                    steps = [step for step, count in enumerate(passed(paths, cell, lane)) if count]
                    headways = paths.time_headways(cell, lane).tolist()
                    self.assertEqual(headways, [after - before for before, after in zip(steps, steps[1:])])
                    number += len(headways)
        self.assertGreater(number, 200)

    def test_changes_are_those_of_the_series(self) -> None:
        for job in ONE_LANE[:3] + TWO_LANES:
            paths = job.run().trajectories()
            self.assertEqual(paths.changes().tolist(), [row.changes for row in job.series()])
            (window,) = job.series(every=job.steps)
            self.assertEqual(paths.change_rate(), window.change_rate)
        self.assertGreater(window.changes + TWO_LANES[0].run().trajectories().changes().sum(), 0)
        for nothing in ONE_LANE[6].run(), ONE_LANE[0].run()[:1]:
            self.assertTrue(math.isnan(nothing.trajectories().change_rate()))

    def test_old_names(self) -> None:
        paths = ONE_LANE[0].run().trajectories()
        for name, new in ("headways", "gaps.*space_headways.*time_headways"), ("detector", "trlab.detectors"):
            with self.assertRaisesRegex(trlab.RenamedError, new):
                getattr(paths, name)
        self.assertRaisesRegex(AttributeError, "'head'", getattr, paths, "head")

    def test_types_of_arrays_and_types_that_are_too_small(self) -> None:
        snapshots = replace(ONE_LANE[0], steps=200).run()
        wide = snapshots.trajectories()
        for name in "lane", "cell", "distance", "speed":
            self.assertEqual(getattr(wide, name).shape, (201, 15))
            self.assertEqual(getattr(wide, name).dtype.name, "int64")
        narrow = snapshots.trajectories(dtype="int16")
        for name in "lane", "cell", "distance", "speed":
            self.assertEqual(getattr(narrow, name).dtype.name, "int16")
            self.assertEqual(getattr(narrow, name).tolist(), getattr(wide, name).tolist())
        self.assertEqual(narrow.jams(), wide.jams())
        self.assertEqual(narrow.travel_times(3, 2), wide.travel_times(3, 2))
        self.assertEqual(narrow.speed_correlation(1, 2), wide.speed_correlation(1, 2))
        self.assertEqual(narrow.gaps().dtype.name, "int64")
        self.assertEqual(narrow.gaps().tolist(), wide.gaps().tolist())
        self.assertEqual(narrow.time_headways(7).tolist(), wide.time_headways(7).tolist())
        for small in "int8", "uint64", float, bool:
            self.assertRaisesRegex(
                ParameterError, "is too small|signed whole numbers", snapshots.trajectories, dtype=small
            )


class CarInStep(NamedTuple):
    """A car after a step, with the columns of `trlab.Cars`."""

    lane: int
    cell: int
    distance: int
    speed: int


def followed_by_dictionaries(snapshots: Sequence[Snapshot]) -> list[list[CarInStep]]:
    """The cars of each snapshot, from one dictionary of cells for each step."""
    cars: dict[tuple[int, int], int] = {}
    rows: list[list[CarInStep]] = []
    for snapshot in snapshots:
        lanes, length = len(snapshot.lanes), len(snapshot.lanes[0])
        speeds = {(lane, cell): speed for lane in range(lanes) for cell, speed in speeds_at(snapshot, lane).items()}
        row: dict[int, CarInStep] = {}
        if not rows:
            cars = {place: car for car, place in enumerate(sorted(speeds))}
            for (lane, cell), car in cars.items():
                row[car] = CarInStep(lane, cell, distance=cell, speed=speeds[lane, cell])
        else:
            before, cars = cars, {}
            for (lane, cell), speed in speeds.items():
                origin, side = (cell - speed) % length, lanes - 1 - lane
                car = before[lane, origin] if (lane, origin) in before else before[side, origin]
                cars[lane, cell] = car
                row[car] = CarInStep(lane, cell, distance=rows[-1][car].distance + speed, speed=speed)
        rows.append([row[car] for car in sorted(row)])
    return rows


@needs("numpy")
class Followed(unittest.TestCase):
    def test_step_by_step_as_all_together(self) -> None:
        for job in ONE_LANE + TWO_LANES:
            paths = job.run(first=2).trajectories()
            for row, cars in enumerate(trlab.follow(job.snapshots(first=2))):
                self.assertEqual(cars.step, row + 2)
                self.assertEqual(len(cars), paths.cars)
                self.assertEqual(cars.lanes, paths.lanes)
                self.assertEqual(cars.length, paths.length)
                for name in "lane", "cell", "distance", "speed":
                    self.assertEqual(getattr(cars, name).tolist(), getattr(paths, name)[row].tolist())
                self.assertEqual(cars.gaps().tolist(), paths.gaps()[row].tolist())
                self.assertEqual(cars.space_headways().tolist(), paths.space_headways()[row].tolist())
                self.assertEqual(cars.ahead(2).tolist(), paths.ahead(2)[row].tolist())
            self.assertEqual(row, len(paths) - 1)

    @needs_hypothesis
    def test_cars_of_random_roads(self) -> None:
        from hypothesis import given
        from tests.random_jobs import EXAMPLES, jobs

        @EXAMPLES
        @given(jobs(12))
        def agree(job: Job) -> None:
            snapshots = job.run()
            for expected, cars in zip(followed_by_dictionaries(snapshots), trlab.follow(iter(snapshots))):
                self.assertEqual(
                    [*zip(*(array.tolist() for array in (cars.lane, cars.cell, cars.distance, cars.speed)))], expected
                )
            self.assertEqual(len([*trlab.follow(snapshots)]), 13)

        agree()

    def test_one_step_is_kept(self) -> None:
        taken: list[int] = []

        def snapshots() -> Iterator[Snapshot]:
            for snapshot in ONE_LANE[0].snapshots():
                taken.append(snapshot.step)
                yield snapshot

        cars = trlab.follow(snapshots())
        self.assertEqual([next(cars).step, next(cars).step], [0, 1])
        self.assertEqual(taken, [0, 1])
        self.assertEqual([*trlab.follow([])], [])


@needs("numpy")
class Windows(unittest.TestCase):
    def test_stopped_time_is_that_of_the_snapshots(self) -> None:
        # The sizes of all jams add up to the stopped cars of the slow count.
        snapshots = replace(ONE_LANE[0], steps=200).run()
        counted = sum(window.stopped for window in windows(snapshots)) + snapshots[0].lanes[0].count("0")
        self.assertEqual(sum(window.size for window in snapshots.trajectories().jams()), counted)
