"""False statements of the laws about the stationary state, and about detectors on the ring."""
from .statement import HALF_BRAKING, NO_BRAKING, ONE_STEP, THREE_CELLS, TWO_STEPS, FalseStatement, job

FALSE = [
    # The stationary state
    FalseStatement(
        law="nasch_has_stationary_state", file="LimitOne",
        runs=(),
        old="p ^ (size ring - free_cars ring) * CERTAIN ^ free_cars ring",
        new="p ^ free_cars ring * CERTAIN ^ (size ring - free_cars ring)",
        law_says="is_stationary(4, 2, weight)",
        false_says="is_stationary(4, 2, lambda p, r: p ** free(r) * C ** (sum(r) - free(r)))",
    ),
    FalseStatement(
        law="nasch_has_stationary_state", file="LimitOne",
        runs=(),
        old="p ^ size braking * (CERTAIN - p) ^ (size ring - size braking)",
        new="(CERTAIN - p) ^ size braking * p ^ (size ring - size braking)",
        law_says="is_stationary(4, 2, weight)",
        false_says="is_stationary(4, 2, weight, braking=lambda p, n, b: (C - p) ** b * p ** (n - b))",
    ),
    FalseStatement(
        law="nasch_has_stationary_state", file="LimitOne",
        runs=(),
        old="≡ CERTAIN ^ size new * weight new", new="≡ CERTAIN ^ size new * weight new * 2",
        law_says="is_stationary(4, 2, weight)", false_says="is_stationary(4, 2, weight, factor=2)",
    ),
    # (Words of 32 bits are twice as many as CERTAIN.)
    FalseStatement(
        law="nasch_has_stationary_state", file="LimitOne",
        runs=(),
        old="≡ words ^ size new *", new="≡ CERTAIN ^ size new *",
        law_says="(2 * C) ** 1 == 2 * C", false_says="2 * C == C ** 1",
    ),
    FalseStatement(
        law="nasch_has_stationary_state", file="LimitOne",
        runs=(),
        old="WeightsAreStationary = (p : ℕ) → p ≤ CERTAIN", new="WeightsAreStationary = (p : ℕ) → p ≤ 2 * CERTAIN",
        law_says="is_stationary(2, 1, weight)", false_says="is_stationary(2, 1, weight, p=2 * C)",
    ),
    FalseStatement(
        law="nasch_has_stationary_state", file="LimitOne",
        runs=(),
        old="(all_rings (length old)) ≡ CERTAIN ^ size old", new="(all_rings (length old)) ≡ CERTAIN ^ length old",
        law_says="steps_from(P, (1, 0)) == C ** 1", false_says="steps_from(P, (1, 0)) == C ** 2",
    ),
    # (Without randomization, two cars on six cells are in free flow at the distances 2 and 4 or 3 and 3.)
    FalseStatement(
        law="nasch_has_stationary_state", file="LimitOne",
        runs=(),
        old="StationaryWeightsAreUnique = (p : ℕ) (weight : Ring → ℕ) (ring other : Ring) → 0 < p",
        new="StationaryWeightsAreUnique = (p : ℕ) (weight : Ring → ℕ) (ring other : Ring) → 0 ≤ p",
        law_says=(
            "is_stationary(6, 2, lambda p, r: int(r in THIRDS), p=0) "
            "and not is_stationary(6, 2, lambda p, r: int(r in THIRDS))"
        ),
        false_says="is_proportional(6, 2, lambda p, r: int(r in THIRDS), p=0)",
    ),
    # (If all cars always brake, a road stays as it is.)
    FalseStatement(
        law="nasch_has_stationary_state", file="LimitOne",
        runs=(),
        old="→ p < CERTAIN\n", new="→ p ≤ CERTAIN\n",
        law_says="is_stationary(3, 1, lambda p, r: r[0], p=C) and not is_stationary(3, 1, lambda p, r: r[0])",
        false_says="is_proportional(3, 1, lambda p, r: r[0], p=C)",
    ),
    FalseStatement(
        law="nasch_steps_rings", file="LimitOne",
        runs=(job(1, HALF_BRAKING, 1, "0.", key=1),),
        old="dice.step 0)", new="dice.step 1)",
        law_says="occupied(1) == ring_step(occupied(0), word(1, 0, 0, 0) // 2 < 2 ** 30)",
        false_says="occupied(1) == ring_step(occupied(0), word(1, 0, 0, 1) // 2 < 2 ** 30)",
    ),
    FalseStatement(
        law="nasch_steps_rings", file="LimitOne",
        runs=(THREE_CELLS, job(2, NO_BRAKING, 1, "1..")),
        old="old.limit ≡ 1 → IsNext rule dice old new tally → l <",
        new="old.limit ≡ 2 → IsNext rule dice old new tally → l <",
        law_says="occupied(1) == ring_step(occupied(0), False)",
        false_says="b.occupied(1) == ring_step(b.occupied(0), False)",
    ),
    FalseStatement(
        law="nasch_steps_rings", file="LimitOne",
        runs=(THREE_CELLS,),
        old="is_moving_car ring braking (behind (length ring) x 1)",
        new="is_moving_car ring braking (ahead (length ring) x 1)",
        law_says="occupied(1) == '.#.'", false_says="occupied(1) == '..#'",
    ),
    FalseStatement(
        law="stationary_flow_is_exact", file="LimitOne",
        runs=(),
        old="choose cars k * splits empty k + splits cars k * choose empty k", new="choose cars k * splits empty k",
        law_says="clustered(1, 1, 1) == comb(1, 1) * comb(0, 0) + comb(0, 0) * comb(1, 1)",
        false_says="clustered(1, 1, 1) == comb(1, 1) * comb(0, 0)",
    ),
    FalseStatement(
        law="stationary_flow_is_exact", file="LimitOne",
        runs=(),
        old="CERTAIN ^ cars * (CERTAIN - p)", new="CERTAIN ^ cars * p",
        law_says="C * distances(P, 2, 1) == C * (C - P) * 2 * C", false_says="C * distances(P, 2, 1) == C * P * 2 * C",
    ),

    # Detectors
    FalseStatement(
        law="detectors_count_flow", file="Detectors",
        runs=(ONE_STEP,),
        old="≡ tally.distance", new="≡ tally.distance + 1",
        law_says="sum(count(x) for x in range(n)) == D", false_says="sum(count(x) for x in range(n)) == D + 1",
    ),
    FalseStatement(
        law="detectors_count_flow", file="Detectors",
        runs=(ONE_STEP,),
        old="passages (lane_of next l) x ≤ 1", new="passages (lane_of next l) x ≤ 0",
        law_says="count(0) <= 1", false_says="count(0) <= 0",
    ),
    FalseStatement(
        law="detectors_count_flow", file="Detectors",
        runs=(THREE_CELLS,),
        old="new x k + left ≡", new="new x k + entered ≡",
        law_says="cars_ahead(1, 0, 1) + count(1) == cars_ahead(0, 0, 1) + count(0)",
        false_says="cars_ahead(1, 0, 1) + count(0) == cars_ahead(0, 0, 1) + count(0)",
    ),
    FalseStatement(
        law="detectors_count_runs", file="Detectors",
        runs=(job(1, NO_BRAKING, 1, ".."),),
        old="(count : ℕ) × DetectorHasCounted seed sheet l x step count",
        new="(count : ℕ) × DetectorHasCounted seed sheet l x step (count + 1)",
        law_says="count(0) >= 0", false_says="count(0) >= 1",
    ),
    FalseStatement(
        law="detectors_count_runs", file="Detectors",
        runs=(THREE_CELLS,),
        old="→ seed.warm ≤ step →", new="→ seed.warm ≤ step + 1 →",
        law_says="cars_ahead(1, 0, 1) == cars_ahead(0, 0, 1) + count(0)",
        false_says="cars_ahead(0, 0, 1) == cars_ahead(1, 0, 1)",
    ),
    FalseStatement(
        law="detectors_count_runs", file="Detectors",
        runs=(ONE_STEP,),
        old="→ DifferByAtMost k first second", new="→ DifferByAtMost (k - 1) first second",
        law_says="abs(count(0) - count(1)) <= 1", false_says="abs(count(0) - count(1)) <= 1 - 1",
    ),
    FalseStatement(
        law="detectors_count_runs", file="Detectors",
        runs=(ONE_STEP,),
        old="≡ sum.distance", new="≡ sum.distance + 1",
        law_says="sum(count(x) for x in range(n)) == D", false_says="sum(count(x) for x in range(n)) == D + 1",
    ),
    FalseStatement(
        law="detectors_count_runs", file="Detectors",
        runs=(ONE_STEP,),
        old="DifferByAtMost (min_of_cars_and_empty_cells (lane_of seed.road l))",
        new="DifferByAtMost (min_of_cars_and_empty_cells (lane_of seed.road l) - 1)",
        law_says="abs(count(0) - count(1)) <= min(N, E)", false_says="abs(count(0) - count(1)) <= min(N, E) - 1",
    ),
    FalseStatement(
        law="detectors_count_runs", file="Detectors",
        runs=(ONE_STEP,),
        old="DifferByAtMost (lane_car_count lane * lane_empty_cells lane)",
        new="DifferByAtMost (lane_car_count lane * lane_empty_cells lane - 1)",
        law_says="abs(n * count(0) - D) <= N * E", false_says="abs(n * count(0) - D) <= N * E - 1",
    ),
    FalseStatement(
        law="detector_counts_below_peak", file="Detectors",
        runs=(TWO_STEPS, job(1, NO_BRAKING, 3, "0.")),
        old="seed.warm + seed.road.limit + 1", new="seed.warm + seed.road.limit + 2",
        law_says="count(0) <= v", false_says="b.count(0) <= v",
    ),
    FalseStatement(
        law="detector_counts_below_peak", file="Detectors",
        runs=(ONE_STEP,),
        old="→ count ≤ seed.road.limit", new="→ count + 1 ≤ seed.road.limit",
        law_says="count(0) <= v", false_says="count(0) + 1 <= v",
    ),
    FalseStatement(
        law="rows_of_detectors_count", file="Detectors",
        runs=(THREE_CELLS,),
        old="row_passages new end ≡", new="row_passages new x ≡",
        law_says="cars_ahead(1, 0, 1) + count(1) == cars_ahead(0, 0, 1) + count(0)",
        false_says="cars_ahead(1, 0, 1) + count(0) == cars_ahead(0, 0, 1) + count(0)",
    ),
    FalseStatement(
        law="rows_of_detectors_count", file="Detectors",
        runs=(THREE_CELLS,),
        old="sum_by second lanes ≡", new="sum_by first lanes ≡",
        law_says="cars_ahead(1, 0, 1) + count(1) == cars_ahead(0, 0, 1) + count(0)",
        false_says="cars_ahead(1, 0, 1) + count(0) == cars_ahead(0, 0, 1) + count(0)",
    ),
    FalseStatement(
        law="rows_of_detectors_count", file="Detectors",
        runs=(ONE_STEP,),
        old="DifferByAtMost (min (cars seed.road) (empty_cells seed.road))",
        new="DifferByAtMost (min (cars seed.road) (empty_cells seed.road) - 1)",
        law_says="abs(count(0) - count(1)) <= min(N, E)", false_says="abs(count(0) - count(1)) <= min(N, E) - 1",
    ),
    FalseStatement(
        law="rows_of_detectors_count", file="Detectors",
        runs=(job(1, NO_BRAKING, 3, "00.."),),
        old="DifferByAtMost (cells * min", new="DifferByAtMost (min",
        law_says="abs(n * count(1) - D) <= n * min(N, E)", false_says="abs(n * count(1) - D) <= min(N, E)",
    ),
]
