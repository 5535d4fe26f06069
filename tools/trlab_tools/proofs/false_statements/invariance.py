"""False statements of the laws about runs that are alike."""
from .statement import ALWAYS_BRAKING, HALF_BRAKING, NO_BRAKING, THREE_CELLS, FalseStatement, job

FALSE = [
    FalseStatement(
        law="ring_is_homogeneous", file="Invariance",
        runs=(THREE_CELLS, THREE_CELLS),
        old="(rotate_road r next) tally", new="(rotate_road (r + 1) next) tally",
        law_says="rows[1] == b.rows[1]", false_says="rotated(1, 1) == b.rows[1]",
    ),
    FalseStatement(
        law="ring_is_homogeneous", file="Invariance",
        runs=(THREE_CELLS, THREE_CELLS),
        old="sheet step (rotate_road r road)", new="sheet step (rotate_road (r + 1) road)",
        law_says="rows[1] == b.rows[1]", false_says="rotated(1, 1) == b.rows[1]",
    ),
    # (The change program of `rickert` begins with `side`.)
    FalseStatement(
        law="lanes_are_symmetric", file="Invariance",
        runs=(),
        old="reads_lane instr ≡ false", new="reads_lane instr ≡ true",
        law_says="'lane' not in 'side r0'", false_says="'lane' in 'side r0'",
    ),
    FalseStatement(
        law="lanes_are_symmetric", file="Invariance",
        runs=(job(1, NO_BRAKING, 1, "0.", ".."), job(1, NO_BRAKING, 1, "..", "0.")),
        old="(exchange_lanes next) tally", new="next tally",
        law_says="b.rows[1] == rows[1][::-1]", false_says="b.rows[1] == rows[1]",
    ),
    FalseStatement(
        law="lanes_are_symmetric", file="Invariance",
        runs=(job(1, NO_BRAKING, 1, "0.", ".."), job(1, NO_BRAKING, 1, "..", "0.")),
        old="sheet step (exchange_lanes road)", new="sheet step road",
        law_says="b.rows[1] == rows[1][::-1]", false_says="b.rows[1] == rows[1]",
    ),
    FalseStatement(
        law="lanes_are_apart", file="Invariance",
        runs=(job(1, NO_BRAKING, 1, "0.", ".."), job(1, NO_BRAKING, 1, "0.", "0.")),
        old="→ ShareLane l next next_other", new="→ ShareLane (l + 1) next next_other",
        law_says="rows[1][0] == b.rows[1][0]", false_says="rows[1][1] == b.rows[1][1]",
    ),
    FalseStatement(
        law="lanes_are_apart", file="Invariance",
        runs=(job(1, NO_BRAKING, 1, "0.", ".."), job(1, NO_BRAKING, 1, "0.", "0.")),
        old="start → ShareLane l road other", new="start → ShareLane (l + 1) road other",
        law_says="rows[1][0] == b.rows[1][0]", false_says="rows[1][1] == b.rows[1][1]",
    ),
    # (The roads are the same up to the cell ahead of the car, or up to its gap of one cell.)
    FalseStatement(
        law="influence_stays_in_light_cone", file="Invariance",
        runs=(job(2, ALWAYS_BRAKING, 1, "..1..."), job(2, ALWAYS_BRAKING, 1, "..1.0.")),
        old="step * (seed.road.limit + 2)", new="step * (seed.road.limit + 1)",
        law_says="rows[1][0][1] == b.rows[1][0][1]", false_says="rows[1][0][2] == b.rows[1][0][2]",
    ),
    FalseStatement(
        law="influence_stays_in_light_cone", file="Invariance",
        runs=(job(2, ALWAYS_BRAKING, 1, "...1...."), job(2, ALWAYS_BRAKING, 1, "...1.0..")),
        old="x (seed.road.limit * step)) w road other", new="x (seed.road.limit * step + 1)) w road other",
        law_says="rows[1][0][2] == b.rows[1][0][2]", false_says="rows[1][0][3] == b.rows[1][0][3]",
    ),
    # (`nasch 0` draws with probability 0.)
    FalseStatement(
        law="deterministic_rules_ignore_key", file="Invariance",
        runs=(),
        old="(chance ≡ 0)", new="(chance ≡ 1)",
        law_says="0 == 0", false_says="0 == 1",
    ),
    FalseStatement(
        law="deterministic_rules_ignore_key", file="Invariance", operator="◌/◌",
        runs=(
            job(1, ALWAYS_BRAKING, 5, "0.."),
            job(1, ALWAYS_BRAKING, 5, "0..", key=1),
            job(1, HALF_BRAKING, 5, "0.."),
            job(1, HALF_BRAKING, 5, "0..", key=1),
        ),
        old="(chance ≡ CERTAIN)", new="(chance ≡ CERTAIN / 2)",
        law_says="rows == b.rows", false_says="c.rows == d.rows",
    ),
    FalseStatement(
        law="deterministic_runs_become_periodic", file="Invariance",
        runs=(job(1, NO_BRAKING, 1, "."),),
        old="1 ≤ period", new="2 ≤ period",
        law_says="1 <= (n * (v + 1)) ** N", false_says="2 <= (n * (v + 1)) ** N",
    ),
    FalseStatement(
        law="deterministic_runs_become_periodic", file="Invariance",
        runs=(job(1, NO_BRAKING, 1, "."),),
        old="(first + period ≤ state_count seed.road)", new="(first + period + 1 ≤ state_count seed.road)",
        law_says="1 <= (n * (v + 1)) ** N", false_says="1 + 1 <= (n * (v + 1)) ** N",
    ),
    FalseStatement(
        law="rules_reduce_to_nasch", file="Invariance",
        runs=(job(1, ALWAYS_BRAKING, 1, "0.."), job(1, "vdr 2147483648 2147483648", 1, "0.."), job(1, "vdr 2147483648 0", 1, "0..")),
        old="IsVdr p p rule → IsNasch p other", new="IsVdr p 0 rule → IsNasch p other",
        law_says="b.rows == rows", false_says="c.rows == rows",
    ),
    FalseStatement(
        law="rules_reduce_to_nasch", file="Invariance",
        runs=(
            job(2, ALWAYS_BRAKING, 1, "10..........", "............"),
            job(2, "rickert 2147483648 0", 1, "10..........", "............"),
            job(2, "rickert 2147483648 2147483648", 1, "10..........", "............"),
        ),
        old="IsRickert p 0 rule", new="IsRickert p p rule",
        law_says="b.rows == rows", false_says="c.rows == rows",
    ),
    FalseStatement(
        law="rules_reduce_to_nasch", file="Invariance",
        runs=(job(1, NO_BRAKING, 2, "0.."), job(1, "vdr 0 0", 2, "0..")),
        old="(always other) step road", new="(always other) (step + 1) road",
        law_says="rows[1] == b.rows[1]", false_says="rows[1] == b.rows[2]",
    ),
    FalseStatement(
        law="nasch_is_rule_184", file="LimitOne",
        runs=(THREE_CELLS,),
        old="IsElementaryStep 184 (lane_of old l) (lane_of new l)",
        new="IsElementaryStep 226 (lane_of old l) (lane_of new l)",
        law_says="occupied(1) == elementary(184, occupied(0))", false_says="occupied(1) == elementary(226, occupied(0))",
    ),
    FalseStatement(
        law="nasch_is_rule_184", file="LimitOne",
        runs=(THREE_CELLS, job(2, NO_BRAKING, 1, "1..")),
        old="IsNasch 0 rule → IsLegal old → old.limit ≡ 1", new="IsNasch 0 rule → IsLegal old → old.limit ≡ 2",
        law_says="occupied(1) == elementary(184, occupied(0))", false_says="b.occupied(1) == elementary(184, b.occupied(0))",
    ),
    FalseStatement(
        law="nasch_is_rule_184", file="LimitOne",
        runs=(THREE_CELLS,),
        old="→ IsElementaryStep 184 old_holes new_holes", new="→ IsElementaryStep 226 old_holes new_holes",
        law_says="holes(occupied(1)) == elementary(184, holes(occupied(0)))",
        false_says="holes(occupied(1)) == elementary(226, holes(occupied(0)))",
    ),
    FalseStatement(
        law="nasch_is_rule_184", file="LimitOne",
        runs=(),
        old="184 (not ahead) (not own) (not behind)", new="184 (not behind) (not own) (not ahead)",
        law_says="all(state(184, *c) != state(184, *(1 - x for x in reversed(c))) for c in neighbourhoods)",
        false_says="all(state(184, *c) != state(184, *(1 - x for x in c)) for c in neighbourhoods)",
    ),
]
