"""The exact study: its solutions are right, trlab agrees with them for fixed keys, and a wrong model is detected."""
import sys
import unittest
from fractions import Fraction
from itertools import product
from pathlib import Path
from typing import Any, Union

sys.path.append(str(Path(__file__).resolve().parents[2]))

from trlab import exact

from studies.exact.chain import Number, by_elimination, by_iteration, chain, expected_distance, first_state, stationary
from studies.exact.closed import flow_of_long_ring, flow_of_ring
from studies.exact.models import Careful, NagelSchreckenberg, Rickert, VelocityDependent
from studies.exact.ring import State, next_states
from studies.exact.rings import RINGS, WALKS, Ring
from studies.exact.sums import Sums
from studies.exact.transitions import counted, groups, judged

Model = Union[NagelSchreckenberg, VelocityDependent, Rickert, Careful]
QUARTER, HALF = Fraction(1, 4), Fraction(1, 2)
NAMED = {ring.name: ring for ring in (*RINGS, *WALKS)}


def flow(model: Model, length: int, cars: int) -> Number:
    """The exact flow of a ring of one lane."""
    return stationary(chain(first_state(length, 1, cars), model)).distance / length


class Solutions(unittest.TestCase):
    def test_known_flows(self) -> None:
        self.assertEqual(flow(NagelSchreckenberg(QUARTER, 1), 8, 3), Fraction(387, 1568))
        self.assertEqual(flow(NagelSchreckenberg(QUARTER, 1), 8, 4), Fraction(735, 2656))
        self.assertEqual(flow(NagelSchreckenberg(QUARTER, 2), 8, 3), Fraction(16892588640919, 41121521625632))

    def test_a_single_car(self) -> None:
        # It drives at v_max, or at v_max - 1 with probability p; if it is stopped by p0 it has to start again.
        self.assertEqual(flow(NagelSchreckenberg(QUARTER, 3), 7, 1), (3 - QUARTER) / 7)
        moving = (1 - HALF) / (1 - HALF + QUARTER)  # v_max 1: starts with 1 - p0, stops with p
        self.assertEqual(flow(VelocityDependent(QUARTER, HALF, 1), 5, 1), moving / 5)

    def test_elimination_is_in_balance_and_iteration_agrees(self) -> None:
        for name in "nasch_1_4_v1_4_on_8", "nasch_1_2_v2_3_on_9", "careful_v3_4_on_9":
            ring = NAMED[name]
            rows = chain(first_state(ring.length, ring.lanes, ring.cars), ring.model).rows
            self.assertTrue(all(sum(row.values()) == 1 for row in rows))
            shares, after = by_elimination(rows), [Fraction(0)] * len(rows)
            for share, row in zip(shares, rows):
                for target, chance in row.items():
                    after[target] += share * chance
            self.assertEqual(after, shares)
            self.assertLess(max(abs(float(a) - b) for a, b in zip(shares, by_iteration(rows))), 1e-13)

    def test_small_rings_forget_their_start_before_they_are_measured(self) -> None:
        for ring in RINGS[:8]:
            states = chain(first_state(ring.length, ring.lanes, ring.cars), ring.model)
            exact_distance = float(stationary(states, most_states=0).distance)
            with self.subTest(ring=ring.name):
                # After the 300 steps that runs are not measured (`Runs`), and after a single one.
                self.assertLess(abs(expected_distance(states, 300) - exact_distance), 1e-5)
                self.assertGreater(abs(expected_distance(states, 1) - exact_distance), 1e-3)

    def test_the_formula_for_v_max_1_holds_on_every_small_ring(self) -> None:
        for p, length in product((QUARTER, HALF, Fraction(3, 4)), range(2, 8)):
            for cars in range(1, length):
                exact_flow = float(flow(NagelSchreckenberg(p, 1), length, cars))
                self.assertAlmostEqual(flow_of_ring(float(p), length, cars), exact_flow, places=14)
        self.assertAlmostEqual(flow_of_ring(0.25, 100000, 30000), flow_of_long_ring(0.25, 0.3), places=5)

    def test_the_module_of_exact_results_agrees(self) -> None:
        for p, length in product((QUARTER, HALF, Fraction(3, 4)), range(2, 7)):
            for cars in range(1, length):
                self.assertEqual(exact.flow(length, cars, p), flow(NagelSchreckenberg(p, 1), length, cars))
        for brake, cars in product((0.25, 0.5), (200, 600, 1000, 1600)):
            self.assertAlmostEqual(exact.flow_as_float(2000, cars, brake), flow_of_ring(brake, 2000, cars), places=12)

    def test_a_worked_step(self) -> None:
        # Both cars have room for one cell, and move with 3/4 each.
        odds = {(".1.1.",): 9, (".10..",): 3, ("0..1.",): 3, ("0.0..",): 1}
        odds_of_states = next_states(("0.0..",), NagelSchreckenberg(QUARTER, 1))
        self.assertEqual(odds_of_states, {state: Fraction(parts, 16) for state, parts in odds.items()})

    def test_a_worked_lane_change(self) -> None:
        # The first car is hindered and changes lanes with 1/2. Then each car with room moves with 3/4.
        stays = {("0.1..", "....."): 12, ("00...", "....."): 4}
        changes = {("..1..", ".1..."): 9, (".0...", ".1..."): 3, ("..1..", "0...."): 3, (".0...", "0...."): 1}
        odds_of_states = next_states(("11...", "....."), Rickert(QUARTER, HALF, 1))
        self.assertEqual(odds_of_states, {state: Fraction(parts, 32) for state, parts in {**stays, **changes}.items()})


class Runs(unittest.TestCase):
    def z(self, ring: Ring, model: Model, number: int) -> list[Any]:
        """How many standard errors the flow, the stopped cars and the lane changes of a ring's repetitions are above those
        of a model; None if every repetition counted the same. `number` distinguishes the random seeds."""
        exact_means = stationary(chain(first_state(ring.length, ring.lanes, ring.cars), model), most_states=100)
        sums = Sums.of(ring.sweep(number, points=100, warm=300, measure=1000).sweep())
        return [sums.z(name, float(mean)) for name, mean in exact_means._asdict().items()]

    def test_runs_have_the_exact_flow(self) -> None:
        for name in "nasch_1_4_v1_3_on_8", "vdr_1_64_v2_4_on_10", "careful_v3_4_on_9", "rickert_1_4_v2_3_on_2x7":
            ring = NAMED[name]
            for number in (1, 2)[: 3 - ring.lanes]:
                distance, stopped, changes = self.z(ring, ring.model, number)
                with self.subTest(ring=name, number=number):
                    self.assertLess(abs(distance), 4)
                    self.assertLess(abs(stopped), 4)
                    self.assertLess(abs(changes or 0), 4)
                    self.assertEqual(changes is None, ring.lanes == 1)

    def test_transitions(self) -> None:
        for name in "nasch_1_4_v2_4_on_10", "vdr_1_64_v3_3_on_8", "careful_v3_4_on_9", "rickert_1_4_v2_3_on_2x7":
            ring = NAMED[name]
            verdict = judged(counted(snapshot.lanes for snapshot in ring.job(1, 10000).snapshots()), ring.model)
            with self.subTest(ring=name):
                self.assertEqual(verdict.impossible, 0)
                self.assertGreater(verdict.freedom, 50)
                self.assertTrue(0.0001 < verdict.share_below() < 0.9999, verdict)

    def test_a_wrong_model_is_detected(self) -> None:
        ring = NAMED["nasch_1_4_v1_4_on_8"]
        counts = counted(snapshot.lanes for snapshot in ring.job(1, 20000).snapshots())
        self.assertGreater(abs(self.z(ring, NagelSchreckenberg(Fraction(17, 64), 1), 1)[0]), 4)
        self.assertGreater(judged(counts, NagelSchreckenberg(Fraction(5, 16), 1)).share_below(), 0.9999)
        self.assertGreater(judged(counts, NagelSchreckenberg(Fraction(0), 1)).impossible, 1000)

    def test_groups_are_expected_often_enough(self) -> None:
        odds: dict[State, Fraction] = {("a",): Fraction(1, 100), ("b",): Fraction(9, 100), ("c",): Fraction(9, 10)}
        self.assertEqual(groups(odds, 1000), [[("a",)], [("b",)], [("c",)]])
        self.assertEqual(groups(odds, 60), [[("a",), ("b",)], [("c",)]])
        self.assertEqual(groups(odds, 5), [[("a",), ("b",), ("c",)]])


if __name__ == "__main__":
    unittest.main()
