"""False statements of the laws that compare rules, and that follow cars from step to step."""
from .statement import (
    ALWAYS_BRAKING, GAP_RULE, HALF_BRAKING, NO_BRAKING, ONE_STEP, SAFE_RULE, THREE_CELLS, TWO_STEPS, UNSAFE_AHEAD_RULE,
    UNSAFE_BEHIND_RULE, FalseStatement, job,
)

FALSE = [
    # Which rule is faster
    FalseStatement(
        law="nobody_beats_nasch", file="Comparison", operator="◌^◌",
        runs=(ONE_STEP, job(1, ALWAYS_BRAKING, 1, "0.")),
        old="→ IsNasch 0 rule → EachRule", new="→ IsNasch (2 ^ 31) rule → EachRule",
        law_says="b.gone(1)[0] <= gone(1)[0]", false_says="gone(1)[0] <= b.gone(1)[0]",
    ),
    FalseStatement(
        law="nobody_beats_nasch", file="Comparison",
        runs=(job(2, NO_BRAKING, 1, "0.."), job(2, GAP_RULE, 1, "0..")),
        old="→ speed ≤ view.speed + 1", new="→ speed ≤ view.speed + 2",
        law_says="gone(1)[0] <= b.gone(1)[0]", false_says="b.gone(1)[0] <= gone(1)[0]",
    ),
    FalseStatement(
        law="nobody_beats_nasch", file="Comparison",
        runs=(ONE_STEP,),
        old="→ speed ≤ view.speed + 1", new="→ speed ≤ view.speed + 0",
        law_says="speeds(1)[0] <= speeds(0)[0] + 1", false_says="speeds(1)[0] <= speeds(0)[0] + 0",
    ),
    FalseStatement(
        law="nobody_beats_nasch", file="Comparison",
        runs=(ONE_STEP, ONE_STEP),
        old="most → far ≤ most", new="most → far + 1 ≤ most",
        law_says="gone(1)[0] <= b.gone(1)[0]", false_says="gone(1)[0] + 1 <= b.gone(1)[0]",
    ),
    FalseStatement(
        law="nobody_beats_nasch", file="Comparison",
        runs=(ONE_STEP, ONE_STEP),
        old="→ sum.distance ≤ most.distance", new="→ sum.distance + 1 ≤ most.distance",
        law_says="D <= b.D", false_says="D + 1 <= b.D",
    ),
    FalseStatement(
        law="nobody_beats_gap", file="Comparison", operator="◌-◌",
        runs=(job(1, GAP_RULE, 1, "0."),),
        old="min view.limit view.gap) rule", new="min view.limit view.gap - 1) rule",
        law_says="speeds(1)[0] == min(v, gaps(0)[0])", false_says="speeds(1)[0] == min(v, gaps(0)[0]) - 1",
    ),
    # (`go` with a number above the limit is no answer.)
    FalseStatement(
        law="nobody_beats_gap", file="Comparison",
        runs=(job(1, GAP_RULE, 1, "0.."),),
        old="Min R0 R0 R1 ∷ Go R0", new="Min R0 R0 R1 ∷ Go R1",
        law_says="speeds(1)[0] == min(v, gaps(0)[0])", false_says="gaps(0)[0] == min(v, gaps(0)[0])",
    ),
    FalseStatement(
        law="nobody_beats_gap", file="Comparison",
        runs=(job(1, ALWAYS_BRAKING, 1, "0."), job(1, GAP_RULE, 1, "0.")),
        old=(
            "→ ReachesSpeedAtOnce rule → EachRule StaysInLane sheet → IsLegal seed.road\n"
            "    → IsNoFaster seed sheet (always rule) step"
        ),
        new=(
            "→ ReachesSpeedAtOnce rule → EachRule StaysInLane sheet → IsLegal seed.road\n"
            "    → IsNoFaster seed (always rule) sheet step"
        ),
        law_says="gone(1)[0] <= b.gone(1)[0]", false_says="b.gone(1)[0] <= gone(1)[0]",
    ),
    FalseStatement(
        law="safe_lane_changes_cost_nobody", file="Comparison",
        runs=tuple(job(1, rule, 1, ".0.", "0..") for rule in (GAP_RULE, SAFE_RULE, UNSAFE_AHEAD_RULE)),
        old="view.speed < view.sidegap", new="view.speed ≤ view.sidegap",
        law_says="D <= b.D", false_says="D <= c.D",
    ),
    FalseStatement(
        law="safe_lane_changes_cost_nobody", file="Comparison",
        runs=tuple(job(1, rule, 1, "1..", ".0.") for rule in (GAP_RULE, SAFE_RULE, UNSAFE_BEHIND_RULE)),
        old="view.limit ≤ view.sideback", new="view.limit ≤ view.sideback + 1",
        law_says="D <= b.D", false_says="D <= c.D",
    ),
    FalseStatement(
        law="safe_lane_changes_cost_nobody", file="Comparison",
        runs=(job(1, NO_BRAKING, 1, "0.", ".."), job(1, "rickert 0 0", 1, "0.", "..")),
        old="car.speed ≤ same.speed", new="car.speed + 1 ≤ same.speed",
        law_says="D <= b.D", false_says="D + 1 <= b.D",
    ),
    FalseStatement(
        law="safe_lane_changes_cost_nobody", file="Comparison",
        runs=(
            job(2, NO_BRAKING, 1, "10..........", "............"),
            job(2, "rickert 0 2147483648", 1, "10..........", "............"),
        ),
        old="slow_tally.distance ≤ fast_tally.distance", new="fast_tally.distance ≤ slow_tally.distance",
        law_says="D <= b.D", false_says="b.D <= D",
    ),
    FalseStatement(
        law="randomization_slows", file="Comparison", operator="◌-◌",
        runs=(ONE_STEP, job(1, ALWAYS_BRAKING, 1, "0.")),
        old="slow.distance + cars road", new="slow.distance + (cars road - 1)",
        law_says="D <= b.D + N", false_says="D <= b.D + N - 1",
    ),
    FalseStatement(
        law="randomization_slows", file="Comparison",
        runs=(ONE_STEP, job(1, ALWAYS_BRAKING, 1, "0.")),
        old="StepTally)\n    → p ≤ q → IsNasch", new="StepTally)\n    → q ≤ p → IsNasch",
        law_says="b.D <= D", false_says="D <= b.D",
    ),
    FalseStatement(
        law="randomization_slows", file="Comparison",
        runs=(job(1, "vdr 0 0", 1, "0."), job(1, "vdr 0 2147483648", 1, "0.")),
        old="→ p0 ≤ q0 →", new="→ q0 ≤ p0 →",
        law_says="b.D <= D", false_says="D <= b.D",
    ),
    FalseStatement(
        law="randomization_slows_runs", file="Comparison",
        runs=(ONE_STEP, job(1, ALWAYS_BRAKING, 1, "0.")),
        old="Seed) (step : ℕ)\n    → p ≤ q → IsNasch", new="Seed) (step : ℕ)\n    → q ≤ p → IsNasch",
        law_says="b.gone(1)[0] <= gone(1)[0]", false_says="gone(1)[0] <= b.gone(1)[0]",
    ),
    FalseStatement(
        law="randomization_slows_runs", file="Comparison",
        runs=(ONE_STEP, job(1, ALWAYS_BRAKING, 1, "0."), job(1, "vdr 2147483648 0", 1, "0.")),
        old="→ p ≤ q0 → IsNasch", new="→ q0 ≤ p → IsNasch",
        law_says="c.gone(1)[0] <= gone(1)[0]", false_says="c.gone(1)[0] <= b.gone(1)[0]",
    ),
    FalseStatement(
        law="randomization_slows_runs", file="Comparison",
        runs=tuple(job(limit, rule, 10, "0..0.....", key=70) for limit in (1, 2) for rule in ("nasch 536870912", HALF_BRAKING)),
        old="IsNasch q heavy → IsLegal seed.road → seed.road.limit ≡ 1",
        new="IsNasch q heavy → IsLegal seed.road → seed.road.limit ≡ 2",
        law_says="b.D <= D", false_says="d.D <= c.D",
    ),
    FalseStatement(
        law="randomization_slows_runs", file="Comparison",
        runs=tuple(
            job(limit, rule, 10, "0..0.....", key=70)
            for limit in (1, 2)
            for rule in ("nasch 536870912", "vdr 1073741824 1073741824")
        ),
        old="IsVdr q q0 heavy → IsLegal seed.road → seed.road.limit ≡ 1",
        new="IsVdr q q0 heavy → IsLegal seed.road → seed.road.limit ≡ 2",
        law_says="b.D <= D", false_says="d.D <= c.D",
    ),
    FalseStatement(
        law="nasch_is_attractive", file="Comparison",
        runs=(ONE_STEP, job(1, ALWAYS_BRAKING, 1, "0.")),
        old="→ p ≤ q → IsNasch p light → IsNasch q heavy → IsLegal rear",
        new="→ q ≤ p → IsNasch p light → IsNasch q heavy → IsLegal rear",
        law_says="b.gone(1)[0] <= gone(1)[0]", false_says="gone(1)[0] <= b.gone(1)[0]",
    ),
    FalseStatement(
        law="nasch_is_attractive", file="Comparison",
        runs=(ONE_STEP, job(1, ALWAYS_BRAKING, 1, "0.")),
        old="→ ℕ) (step : ℕ)\n    → p ≤ q → IsNasch", new="→ ℕ) (step : ℕ)\n    → q ≤ p → IsNasch",
        law_says="b.gone(1)[0] <= gone(1)[0]", false_says="gone(1)[0] <= b.gone(1)[0]",
    ),
    # (On the first road the car is one cell behind that of the second; on the last two it is in the same cell.)
    FalseStatement(
        law="nasch_is_attractive", file="Comparison",
        runs=(job(1, NO_BRAKING, 1, "1..."), job(1, NO_BRAKING, 1, ".0.."), job(2, NO_BRAKING, 1, "2...."), job(2, NO_BRAKING, 1, "0....")),
        old="IsLegal front → rear.limit ≡ 1", new="IsLegal front → rear.limit ≡ 2",
        law_says="gone(1)[0] <= 1 + b.gone(1)[0]", false_says="c.gone(1)[0] <= d.gone(1)[0]",
    ),
    FalseStatement(
        law="nasch_is_attractive", file="Comparison",
        runs=(job(1, NO_BRAKING, 1, "1..."), job(1, NO_BRAKING, 1, ".0.."), job(2, NO_BRAKING, 1, "2...."), job(2, NO_BRAKING, 1, "0....")),
        old="IsLegal front → seed.road.limit ≡ 1", new="IsLegal front → seed.road.limit ≡ 2",
        law_says="gone(1)[0] <= 1 + b.gone(1)[0]", false_says="c.gone(1)[0] <= d.gone(1)[0]",
    ),

    # Following cars
    FalseStatement(
        law="gaps_follow_speeds", file="Following",
        runs=(job(1, NO_BRAKING, 1, "00."),),
        old="car.place + goes next", new="car.place + goes car",
        law_says="gaps(1)[0] + speeds(1)[0] == gaps(0)[0] + speeds(1)[1]",
        false_says="gaps(1)[0] + speeds(1)[0] == gaps(0)[0] + speeds(1)[0]",
    ),
    FalseStatement(
        law="gaps_fill_lanes", file="Following",
        runs=(THREE_CELLS,),
        old="≡ lane_empty_cells lane", new="≡ lane_car_count lane",
        law_says="sum(gaps(0)) == E", false_says="sum(gaps(0)) == N",
    ),
    FalseStatement(
        law="gaps_fill_lanes", file="Following",
        runs=(job(1, NO_BRAKING, 1, "0.", ".."),),
        old="≡ lane_car_count (lane_of seed.road l)", new="≡ lane_car_count (lane_of seed.road (l + 1))",
        law_says="cars_on(1, 0) == cars_on(0, 0)", false_says="cars_on(1, 0) == cars_on(0, 1)",
    ),
    FalseStatement(
        law="nobody_overtakes", file="Following",
        runs=(job(1, NO_BRAKING, 1, "0.0"),),
        old="IsNextOf road car.number next", new="IsNextOf road car.number car.number",
        law_says="next_car(0)[0] == 1", false_says="next_car(0)[0] == 0",
    ),
    FalseStatement(
        law="nobody_overtakes", file="Following",
        runs=(job(1, NO_BRAKING, 1, "0.0"),),
        old="→ next ≡ other", new="→ next ≡ number",
        law_says="next_car(0)[0] == 1", false_says="next_car(0)[0] == 0",
    ),
    FalseStatement(
        law="nobody_overtakes", file="Following",
        runs=(job(1, NO_BRAKING, 1, "0.0.0."),),
        old="→ IsNextOf new number next", new="→ IsNextOf new next number",
        law_says="next_car(1)[0] == next_car(0)[0]", false_says="next_car(1)[next_car(0)[0]] == 0",
    ),
    FalseStatement(
        law="nobody_overtakes", file="Following",
        runs=(job(1, NO_BRAKING, 1, "0.0.0."),),
        old="→ IsNextOf road number next\n", new="→ IsNextOf road next number\n",
        law_says="next_car(1)[0] == next_car(0)[0]", false_says="next_car(1)[next_car(0)[0]] == 0",
    ),
    FalseStatement(
        law="cars_go_distance", file="Following",
        runs=(ONE_STEP,),
        old="× HasGone seed sheet step number far", new="× HasGone seed sheet step (number + 1) far",
        law_says="len(gone(1)) >= 1", false_says="len(gone(1)) >= 2",
    ),
    FalseStatement(
        law="cars_go_distance", file="Following",
        runs=(ONE_STEP,),
        old="→ far ≡ other", new="→ far ≡ other + 1",
        law_says="gone(1)[0] == gone(1)[0]", false_says="gone(1)[0] == gone(1)[0] + 1",
    ),
    FalseStatement(
        law="cars_go_distance", file="Following",
        runs=(TWO_STEPS, job(1, NO_BRAKING, 2, "0.", warm=1)),
        old="→ seed.warm ≡ 0 →", new="→ seed.warm ≡ 1 →",
        law_says="sum(gone(2)) == D", false_says="sum(gone(2)) == b.D",
    ),
    FalseStatement(
        law="cars_go_distance", file="Following",
        runs=(ONE_STEP,),
        old="≡ sum.distance", new="≡ sum.distance + 1",
        law_says="sum(gone(1)) == D", false_says="sum(gone(1)) == D + 1",
    ),
]
