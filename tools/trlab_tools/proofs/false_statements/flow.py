"""False statements of the laws about the flow: its bounds, the fundamental diagram, waves, jams, and tables of sweeps."""
from .statement import (
    ALWAYS_BRAKING, BLOCKED, CAMPAIGN, GAP_RULE, NO_BRAKING, ONE_STEP, RESTLESS_RULE, THREE_CELLS, TWO_STEPS,
    FalseStatement, Sweep, job,
)

FALSE = [
    # Bounds on the flow
    FalseStatement(
        law="step_stays_under_triangle", file="Bounds",
        runs=(ONE_STEP,),
        old="IsDistanceUnderTriangle road 1 tally.distance", new="IsDistanceUnderTriangle road 1 (tally.distance + 1)",
        law_says="D <= E and D <= v * N", false_says="D + 1 <= E and D + 1 <= v * N",
    ),
    FalseStatement(
        law="run_stays_under_triangle", file="Bounds",
        runs=(TWO_STEPS,),
        old="IsDistanceUnderTriangle seed.road (counted_steps seed step) sum.distance",
        new="IsDistanceUnderTriangle seed.road (counted_steps seed step) (sum.distance + 1)",
        law_says="D <= T * E and D <= T * v * N", false_says="D + 1 <= T * E and D + 1 <= T * v * N",
    ),
    FalseStatement(
        law="run_stays_under_triangle", file="Bounds",
        runs=(ONE_STEP,),
        old="≡ all_cells road", new="≡ all_cells road + 1",
        law_says="N + E == n", false_says="N + E == n + 1",
    ),
    FalseStatement(
        law="run_keeps_below_peak", file="Bounds",
        runs=(TWO_STEPS,),
        old="(seed.road.limit + 1) * sum.distance", new="(seed.road.limit + 2) * sum.distance",
        law_says="(v + 1) * D <= T * v * n", false_says="(v + 2) * D <= T * v * n",
    ),
    FalseStatement(
        law="moving_speed_is_bounded", file="Bounds", operator="◌-◌",
        runs=(job(1, NO_BRAKING, 1, "00."),),
        old="≤ sum.distance + sum.stopped", new="≤ sum.distance + sum.stopped - 1",
        law_says="T * N <= D + S", false_says="T * N <= D + S - 1",
    ),
    FalseStatement(
        law="moving_speed_is_bounded", file="Bounds",
        runs=(job(1, NO_BRAKING, 1, "00."),),
        old="road.limit * sum.stopped ≤", new="(road.limit + 1) * sum.stopped ≤",
        law_says="D + v * S <= T * v * N", false_says="D + (v + 1) * S <= T * v * N",
    ),
    FalseStatement(
        law="few_cars_change_lanes", file="Bounds",
        runs=(job(1, RESTLESS_RULE, 3, "0", "."),),
        old="changes ≤ steps * cars road", new="2 * changes ≤ steps * cars road",
        law_says="L <= T * N", false_says="2 * L <= T * N",
    ),
    FalseStatement(
        law="few_cars_change_lanes", file="Bounds",
        runs=(job(1, RESTLESS_RULE, 3, "0", "."),),
        old="changes ≤ steps * empty_cells road", new="2 * changes ≤ steps * empty_cells road",
        law_says="L <= T * E", false_says="2 * L <= T * E",
    ),
    FalseStatement(
        law="braking_costs_distance", file="Bounds",
        runs=(job(1, ALWAYS_BRAKING, 1, "0."),),
        old="distance + braked ≤ steps * distance_at_limit road",
        new="distance + 2 * braked ≤ steps * distance_at_limit road",
        law_says="D + braked(2 ** 31) <= T * v * N", false_says="D + 2 * braked(2 ** 31) <= T * v * N",
    ),
    FalseStatement(
        law="braking_costs_distance", file="Bounds",
        runs=(job(1, ALWAYS_BRAKING, 1, "00"),),
        old="distance + with_gap ≤", new="distance + braked ≤",
        law_says="D + braked(2 ** 31, True) <= T * E", false_says="D + braked(2 ** 31) <= T * E",
    ),
    FalseStatement(
        law="braking_costs_distance", file="Bounds", operator="◌^◌",
        runs=(ONE_STEP,),
        old="HasBraked (λ speed. p) seed", new="HasBraked (λ speed. 2 ^ 31) seed",
        law_says="D + braked(0) <= T * v * N", false_says="D + braked(2 ** 31) <= T * v * N",
    ),
    FalseStatement(
        law="braking_costs_distance", file="Bounds",
        runs=(job(1, "rickert 2147483648 0", 1, "0.", ".."),),
        old="sum.distance + braked ≤", new="sum.distance + 2 * braked ≤",
        law_says="D + T * N <= T * v * N", false_says="D + 2 * T * N <= T * v * N",
    ),

    # The fundamental diagram without randomization
    FalseStatement(
        law="nasch_reaches_triangle", file="Diagram",
        runs=(ONE_STEP,),
        old="* max_distance seed.road", new="* (max_distance seed.road + 1)",
        law_says="D == T * min(v * N, E)", false_says="D == T * (min(v * N, E) + 1)",
    ),
    FalseStatement(
        law="nasch_reaches_triangle", file="Diagram",
        runs=(job(3, NO_BRAKING, 5, "01......", warm=4), job(3, NO_BRAKING, 4, "01......", warm=3)),
        old="most ≤ limit * (step + 1 - delay)", new="most ≤ limit * (step + 2 - delay)",
        law_says="min(v * N, E) <= v * (warm + 1 - v) and D == T * min(v * N, E)",
        false_says="not min(v * N, E) <= v * (warm + 2 - v) or b.D == b.T * min(v * N, E)",
    ),
    FalseStatement(
        law="nasch_reaches_triangle", file="Diagram",
        runs=(job(2, NO_BRAKING, 3, "0..", warm=2), job(2, NO_BRAKING, 1, "0..")),
        old=(
            "let most = lane_max_distance seed.road.limit (lane_of seed.road l) in\n"
            "    HasRelaxed seed.road.limit seed.road.limit most"
        ),
        new="let most = lane_max_distance seed.road.limit (lane_of seed.road l) in\n    HasRelaxed seed.road.limit 0 most",
        law_says="D == T * min(v * N, E)", false_says="b.D == b.T * min(v * N, E)",
    ),
    FalseStatement(
        law="nasch_reaches_triangle", file="Diagram",
        runs=(ONE_STEP,),
        old="* sum_by (lane_max_distance seed.road.limit) seed.road.lanes",
        new="* (sum_by (lane_max_distance seed.road.limit) seed.road.lanes + 1)",
        law_says="D == T * min(v * N, E)", false_says="D == T * (min(v * N, E) + 1)",
    ),
    FalseStatement(
        law="rule_184_reaches_triangle", file="Diagram",
        runs=(THREE_CELLS, job(2, NO_BRAKING, 1, "0..")),
        old="seed.road.limit ≡ 1", new="seed.road.limit ≡ 2",
        law_says="D == T * min(v * N, E)", false_says="b.D == b.T * min(b.v * N, E)",
    ),
    FalseStatement(
        law="rule_184_reaches_triangle", file="Diagram",
        runs=(job(1, NO_BRAKING, 2, "00..", warm=1), job(1, NO_BRAKING, 1, "00..")),
        old="(empty_cells seed.road) ≤ seed.warm + 1", new="(empty_cells seed.road) ≤ seed.warm + 2",
        law_says="D == T * min(v * N, E)", false_says="b.D == b.T * min(v * N, E)",
    ),
    FalseStatement(
        law="gap_reaches_triangle", file="Diagram",
        runs=(job(1, GAP_RULE, 2, "00..", warm=1), job(1, GAP_RULE, 1, "00..")),
        old="→ max_distance seed.road ≤ seed.road.limit * (seed.warm + 1)",
        new="→ max_distance seed.road ≤ seed.road.limit * (seed.warm + 2)",
        law_says="D == T * min(v * N, E)", false_says="b.D == b.T * min(v * N, E)",
    ),
    FalseStatement(
        law="gap_reaches_triangle", file="Diagram",
        runs=(job(2, GAP_RULE, 1, "0.."), job(2, NO_BRAKING, 1, "0..")),
        old="→ ReachesSpeedAtOnce rule →", new="→ IsNasch 0 rule →",
        law_says="D == T * min(v * N, E)", false_says="b.D == b.T * min(v * N, E)",
    ),
    FalseStatement(
        law="gap_reaches_triangle", file="Diagram",
        runs=(job(1, GAP_RULE, 1, "00.."), job(1, GAP_RULE, 2, "00..", warm=1)),
        old="→ seed.road.limit * (seed.warm + 1) < max_distance", new="→ seed.road.limit * seed.warm < max_distance",
        law_says="D < min(v * N, E)", false_says="b.D < min(v * N, E)",
    ),
    FalseStatement(
        law="gap_reaches_triangle", file="Diagram",
        runs=(job(1, GAP_RULE, 1, "00.."),),
        old="→ sum.distance < max_distance", new="→ sum.distance + 1 < max_distance",
        law_says="D < min(v * N, E)", false_says="D + 1 < min(v * N, E)",
    ),
    FalseStatement(
        law="even_cars_flow_on_triangle", file="Diagram",
        runs=(job(2, NO_BRAKING, 2, "0....", warm=1), job(2, NO_BRAKING, 1, "0....")),
        old="→ limit ≤ seed.warm + 1", new="→ limit ≤ seed.warm + 2",
        law_says="D == T * min(v * N, E)", false_says="b.D == b.T * min(v * N, E)",
    ),
    FalseStatement(
        law="even_cars_flow_on_triangle", file="Diagram",
        runs=(job(1, NO_BRAKING, 1, "0...."), job(2, NO_BRAKING, 1, "0....")),
        old="IsEvenlySpaced 1 cells limit n seed.road", new="IsEvenlySpaced 1 cells (limit + 1) n seed.road",
        law_says="D == T * min(v * N, E)", false_says="b.D == b.T * min(b.v * N, E)",
    ),

    # Kinematic waves, the minimum principle, density classification
    FalseStatement(
        law="kinematic_waves", file="Waves",
        runs=(job(2, NO_BRAKING, 3, "0....."),),
        old="→ PatternMovesAhead (seed.road.limit * k) (lane_of old l)", new="→ PatternMovesAhead k (lane_of old l)",
        law_says="moved(2, 3, 2)", false_says="moved(2, 3, 1)",
    ),
    FalseStatement(
        law="kinematic_waves", file="Waves",
        runs=(job(2, NO_BRAKING, 4, "000."),),
        old="→ PatternMovesBack k (lane_of old l)", new="→ PatternMovesBack (seed.road.limit * k) (lane_of old l)",
        law_says="moved(3, 4, -1)", false_says="moved(3, 4, -2)",
    ),
    FalseStatement(
        law="kinematic_waves", file="Waves",
        runs=(job(1, NO_BRAKING, 1, "00."), THREE_CELLS),
        old="length lane ≤ lane_car_count lane * (limit + 1)", new="length lane ≤ lane_car_count lane * (limit + 2)",
        law_says="moved(0, 1, -1)", false_says="b.moved(0, 1, -1)",
    ),
    FalseStatement(
        law="kinematic_waves", file="Waves",
        runs=(job(1, NO_BRAKING, 4, "0.."),),
        old="rule step (length (lane_of seed.road l)) old new", new="rule step (length (lane_of seed.road l) + 1) old new",
        law_says="moved(0, 3, 0)", false_says="moved(0, 4, 0)",
    ),
    FalseStatement(
        law="kinematic_waves", file="Waves",
        runs=(job(2, NO_BRAKING, 3, "0....."),),
        old="(IsNasch 0 rule × (delay ≡ limit))", new="(IsNasch 0 rule × (delay ≡ 0))",
        law_says="moved(2, 3, 2)", false_says="moved(0, 1, 2)",
    ),
    FalseStatement(
        law="kinematic_waves", file="Waves",
        runs=(BLOCKED,),
        old="seed.road.limit ≤ step →", new="seed.road.limit ≤ step + 1 →",
        law_says="gone(2)[0] <= gone(1)[0] + min(v, gaps(1)[0])", false_says="gone(2)[0] == gone(1)[0] + min(v, gaps(1)[0])",
    ),
    FalseStatement(
        law="kinematic_waves", file="Diagram",
        runs=(job(3, NO_BRAKING, 5, "01......"),),
        old="most ≤ limit * (step + 1 - delay)", new="most ≤ limit * (step + 2 - delay)",
        law_says="moved(4, 5, 3)", false_says="moved(3, 4, 3)",
    ),
    FalseStatement(
        law="minimum_principle", file="Waves",
        runs=(job(1, GAP_RULE, 1, "00."),),
        old="smallest_to step (λ j.", new="smallest_to (step - 1) (λ j.",
        law_says="gone(1) == minimum(1)", false_says="gone(1) == minimum(1, 0)",
    ),
    FalseStatement(
        law="minimum_principle", file="Waves",
        runs=(job(2, GAP_RULE, 1, "0..."), job(2, NO_BRAKING, 1, "0...")),
        old="→ ReachesSpeedAtOnce rule → IsLegal seed.road → IsAt seed.road car",
        new="→ IsNasch 0 rule → IsLegal seed.road → IsAt seed.road car",
        law_says="gone(1) == minimum(1)", false_says="b.gone(1) == b.minimum(1)",
    ),
    FalseStatement(
        law="minimum_principle", file="Waves",
        runs=(job(1, NO_BRAKING, 1, "0..."), job(2, NO_BRAKING, 1, "0...")),
        old="→ IsLegal seed.road → seed.road.limit ≡ 1 →", new="→ IsLegal seed.road → seed.road.limit ≡ 2 →",
        law_says="gone(1) == minimum(1)", false_says="b.gone(1) == b.minimum(1)",
    ),
    FalseStatement(
        law="minimum_principle", file="Waves",
        runs=(job(2, NO_BRAKING, 3, "01...."),),
        old="IsLegal seed.road → delay ≤ step", new="IsLegal seed.road → delay ≤ step + 1",
        law_says="[a - b for a, b in zip(gone(3), gone(2))] == minimum(1, start=2)",
        false_says="[a - b for a, b in zip(gone(2), gone(1))] == minimum(1, start=1)",
    ),
    FalseStatement(
        law="minimum_principle", file="Waves",
        runs=(ONE_STEP,),
        old="→ far ≤ newell_distance", new="→ far + 1 ≤ newell_distance",
        law_says="gone(1)[0] <= minimum(1)[0]", false_says="gone(1)[0] + 1 <= minimum(1)[0]",
    ),
    FalseStatement(
        law="minimum_principle", file="Waves",
        runs=(job(1, GAP_RULE, 1, "0."),),
        old="sum.distance ≡ sum_by gone (standing seed.road)", new="sum.distance ≡ sum_by gone (standing seed.road) + 1",
        law_says="D == sum(minimum(1))", false_says="D == sum(minimum(1)) + 1",
    ),
    FalseStatement(
        law="rule_184_classifies_density", file="LimitOne",
        runs=(job(1, NO_BRAKING, 1, "00.."),),
        old="(lane_of seed.road l) ≤ step + 1", new="(lane_of seed.road l) ≤ step + 2",
        law_says="neighbours(1, '#') == 0", false_says="neighbours(0, '#') == 0",
    ),
    FalseStatement(
        law="rule_184_classifies_density", file="LimitOne",
        runs=(job(1, NO_BRAKING, 0, "00."),),
        old="2 * lane_car_count start ≤ length start", new="2 * lane_car_count start ≤ length start + 1",
        law_says="neighbours(0, '.') == 0", false_says="neighbours(0, '#') == 0",
    ),
    FalseStatement(
        law="rule_184_classifies_density", file="LimitOne",
        runs=(job(1, NO_BRAKING, 2, "000..."), job(2, NO_BRAKING, 2, "000...")),
        old="seed.road.limit ≡ 1", new="seed.road.limit ≡ 2",
        law_says="neighbours(2, '#') == 0", false_says="b.neighbours(2, '#') == 0",
    ),

    # Free flow and jams
    FalseStatement(
        law="free_flow_stays_free", file="FlowAndJams",
        runs=(job(1, NO_BRAKING, 1, "1.."),),
        old="AllMoveAhead (λ car. old.limit)", new="AllMoveAhead (λ car. old.limit + 1)",
        law_says="rows[1] == ['.1.']", false_says="rows[1] == ['..2']",
    ),
    FalseStatement(
        law="free_flow_stays_free", file="FlowAndJams",
        runs=(job(1, NO_BRAKING, 1, "1.."),),
        old="* distance_at_limit seed.road", new="* (distance_at_limit seed.road + 1)",
        law_says="D == T * v * N", false_says="D == T * (v * N + 1)",
    ),
    FalseStatement(
        law="free_flow_stays_free", file="FlowAndJams",
        runs=(job(1, NO_BRAKING, 1, "1.."),),
        old="rotate_road (seed.road.limit * step) road", new="rotate_road (seed.road.limit * step + 1) road",
        law_says="moved(0, 1, v)", false_says="moved(0, 1, v + 1)",
    ),
    FalseStatement(
        law="slow_starts_are_metastable", file="FlowAndJams",
        runs=(job(1, "vdr 0 0", 1, "1.."), job(1, "vdr 2147483648 0", 1, "1..")),
        old=(
            "IsVdr 0 p0 rule → IsLegal seed.road → IsInFreeFlow seed.road → ComesTo seed (always rule) step road sum\n"
            "    → FlowsFreely"
        ),
        new=(
            "IsVdr CERTAIN p0 rule → IsLegal seed.road → IsInFreeFlow seed.road → ComesTo seed (always rule) step road sum\n"
            "    → FlowsFreely"
        ),
        law_says="D == T * v * N", false_says="b.D == b.T * v * N",
    ),
    FalseStatement(
        law="slow_starts_are_metastable", file="FlowAndJams",
        runs=(job(1, "vdr 0 0", 1, "1.."), job(1, "vdr 2147483648 0", 1, "1..")),
        old=(
            "IsVdr 0 p0 rule → IsLegal seed.road → IsInFreeFlow seed.road → ComesTo seed (always rule) step road sum\n"
            "    → MovesAsOne"
        ),
        new=(
            "IsVdr CERTAIN p0 rule → IsLegal seed.road → IsInFreeFlow seed.road → ComesTo seed (always rule) step road sum\n"
            "    → MovesAsOne"
        ),
        law_says="moved(0, 1, 1)", false_says="b.moved(0, 1, 1)",
    ),
    FalseStatement(
        law="slow_starts_are_metastable", file="FlowAndJams",
        runs=(job(1, "vdr 0 2147483648", 1, "0.."), job(1, "vdr 0 0", 1, "0..")),
        old="IsVdr p CERTAIN rule", new="IsVdr p 0 rule",
        law_says="D == 0", false_says="b.D == 0",
    ),
    FalseStatement(
        law="two_flows_at_one_density", file="FlowAndJams",
        runs=(job(1, "vdr 0 2147483648", 1, "1."), job(1, "vdr 0 2147483648", 1, "1")),
        old="n * (limit + 1) ≤ cells", new="n * limit ≤ cells",
        law_says="D == T * v * N", false_says="b.D == b.T * v * N",
    ),
    FalseStatement(
        law="two_flows_at_one_density", file="FlowAndJams",
        runs=(job(1, "vdr 0 2147483648", 1, "1."),),
        old="* (limit * n)", new="* (limit * n + 1)",
        law_says="D == T * v * N", false_says="D == T * (v * N + 1)",
    ),
    FalseStatement(
        law="two_flows_at_one_density", file="FlowAndJams",
        runs=(job(1, "vdr 0 2147483648", 1, "1."), job(1, "vdr 2147483648 2147483648", 1, "1.")),
        old="→ IsVdr 0 CERTAIN rule", new="→ IsVdr CERTAIN CERTAIN rule",
        law_says="D == T * v * N", false_says="b.D == b.T * v * N",
    ),
    FalseStatement(
        law="car_without_gap_stops", file="FlowAndJams",
        runs=(job(1, NO_BRAKING, 1, "0.0"),),
        old="car.place ≡ 0", new="car.place ≡ 1",
        law_says="all(s == 0 for g, s in zip(gaps(0), speeds(1)) if g == 0)",
        false_says="all(s == 0 for g, s in zip(gaps(0), speeds(1)) if g == 1)",
    ),
    FalseStatement(
        law="queue_dissolves_from_front", file="FlowAndJams",
        runs=(job(1, NO_BRAKING, 2, "00.."),),
        old="→ 1 ≤ step → step ≤ j →", new="→ 1 ≤ step → step ≤ j + 1 →",
        law_says="gone(1)[0] == 0", false_says="gone(2)[0] == 0",
    ),
    FalseStatement(
        law="queue_dissolves_from_front", file="FlowAndJams",
        runs=(job(1, NO_BRAKING, 3, "00..."),),
        old="(always rule) (j + 1) road", new="(always rule) (j + 2) road",
        law_says="gone(2)[0] == 1", false_says="gone(3)[0] == 1",
    ),
    FalseStatement(
        law="queue_flows_out_car_by_car", file="FlowAndJams",
        runs=(job(1, "vdr 0 0", 2, "01.."), job(1, "vdr 0 2147483648", 2, "01..")),
        old="(dice_at seed t) car 0 p0 ≡ false", new="(dice_at seed t) car 0 p0 ≡ true",
        law_says="gone(1) == [0, 1] and gone(2)[0] == 1", false_says="not b.gone(1) == [0, 1] or b.gone(2)[0] == 1",
    ),
    FalseStatement(
        law="queue_flows_out_car_by_car", file="FlowAndJams",
        runs=(job(1, "vdr 0 0", 1, "01.."),),
        old="pub later : s < t", new="pub later : s ≤ t",
        law_says="gone(1)[1] == 1 and gone(1)[0] == 0", false_says="gone(1)[0] == 1",
    ),

    # Tables of sweeps
    FalseStatement(
        law="sweeps_stay_under_triangle", file="SweepOutput", crate=CAMPAIGN,
        runs=(Sweep(1, NO_BRAKING, 2, 1, 0, 1),),
        old="point.steps * empty_cells_at point", new="point.steps * (empty_cells_at point - 1)",
        law_says="D <= T * E", false_says="D <= T * (E - 1)",
    ),
    FalseStatement(
        law="sweeps_stay_under_triangle", file="SweepOutput", crate=CAMPAIGN,
        runs=(Sweep(1, NO_BRAKING, 2, 1, 0, 1),),
        old="≤ steady_flow point (limit * point.cars)", new="≤ steady_flow point (limit * point.cars) - 1",
        law_says="flow <= 10 ** 6 * v * N // n", false_says="flow <= 10 ** 6 * v * N // n - 1",
    ),
    FalseStatement(
        law="sweeps_stay_under_triangle", file="SweepOutput", crate=CAMPAIGN,
        runs=(Sweep(2, NO_BRAKING, 5, 1, 1, 1), Sweep(2, NO_BRAKING, 5, 1, 0, 1)),
        old="≤ common.span.warm + 1", new="≤ common.span.warm + 2",
        law_says="D == T * min(v * N, E)", false_says="b.D == b.T * min(v * N, E)",
    ),
    FalseStatement(
        law="sweeps_stay_under_triangle", file="SweepOutput", crate=CAMPAIGN,
        runs=(Sweep(1, NO_BRAKING, 2, 1, 0, 1),),
        old="(limit + 1) * point.distance", new="(limit + 2) * point.distance",
        law_says="(v + 1) * D <= T * v * n", false_says="(v + 2) * D <= T * v * n",
    ),
    FalseStatement(
        law="sweeps_stay_under_triangle", file="SweepOutput", crate=CAMPAIGN,
        runs=(Sweep(1, NO_BRAKING, 2, 1, 0, 1),),
        old="≤ limit * 1000000 / (limit + 1)", new="≤ limit * 1000000 / (limit + 2)",
        law_says="flow <= v * 10 ** 6 // (v + 1)", false_says="flow <= v * 10 ** 6 // (v + 2)",
    ),
    FalseStatement(
        law="sweeps_stay_under_triangle", file="SweepOutput", crate=CAMPAIGN,
        runs=(Sweep(1, NO_BRAKING, 2, 1, 0, 1),),
        old="≤ point.distance + point.stopped", new="≤ point.distance + point.stopped - 1",
        law_says="T * N <= D + S", false_says="T * N <= D + S - 1",
    ),
    FalseStatement(
        law="sweeps_stay_under_triangle", file="SweepOutput", crate=CAMPAIGN,
        runs=(Sweep(1, NO_BRAKING, 3, 2, 0, 1),),
        old="+ limit * point.stopped ≤", new="+ (limit + 1) * point.stopped ≤",
        law_says="D + v * S <= T * v * N", false_says="D + (v + 1) * S <= T * v * N",
    ),
]
