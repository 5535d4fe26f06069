#!/bin/bash
# Checks the laws of docs/LAWS.md on runs of ./trlab, and prints an example of each law with its meaning.
#
#   bash docs/laws/by_example.sh [PART ..]
#
# Without a part all of them run, which takes some seconds. Run it at the top of the repository; it writes into the
# folder study there. The scripts next to it count and compare; their first lines say how. The output of all parts is in
# docs/laws/by_example.txt.
set -euo pipefail

PARTS=(bounds triangle waves minimum classification jams faster braking exact following invariance detectors)
# The motion of a rule with the speed min(v, gap).
GAP_RULE='own
motion
get r0, limit
get r1, gap
min r0, r0, r1
go r0
end'
# Twelve cars in a queue on 60 cells.
QUEUE=000000000000................................................

# Begins a part.
heading() { printf '== %s\n' "$1"; }

# Begins an example: its text, and the random seed 0.
say() {
    seed 0
    printf '\n%s\n\n' "$1"
}

# Sets the random seed of the jobs that follow.
seed() {
    KEY=$(printf '%064d' "$1")
    export KEY
}

# A job: job LIMIT RULE STEPS LANE..
job() { sh docs/laws/job.sh "$@"; }

bounds() {
    heading 'Bounds on the flow'
    say 'No point of these four tables violates the laws of the triangle, the peak, moving cars or lane changes:'
    for table in fundamental_diagram slow_to_start two_lanes lane_rule; do
        awk -F, -v name=$table -v v=5 '
            NR == 1 { next }
            { N = $1; n = $2; T = $3; D = $4; S = $5; L = $6; E = n - N }
            D > T * E || D > T * v * N || (v + 1) * D > T * v * n { wrong++ }
            T * N > D + S || D + v * S > T * v * N || L > T * N || L > T * E { wrong++ }
            END { print name ": " NR - 1 " points, " wrong + 0 " break a law" }' examples/$table.csv
    done
}

triangle() {
    heading 'The triangle'
    say 'The law holds for any initial road, for example four cars on 11 cells with limit 2. Then v - 1 + min(N, E / v)
is 4.5, so from step 5 on the cars drive min(8, 7) = 7 cells per step:'
    job 2 'nasch 0' 17 000....0... | ./trlab series --from 5 --every 4 | cut -d , -f 1,4,5

    say 'With limit 1 the law holds from step min(N, E) - 1 = 3 on, and the distance is min(4, 7) = 4:'
    job 1 'nasch 0' 15 000....0... | ./trlab series --from 3 --every 4 | cut -d , -f 1,4,5

    say 'Some roads need all of these steps. Here v - 1 + min(N, E / v) = 4, and the distance is min(6, 6) = 6 for the
first time in the step after step 4:'
    job 3 'nasch 0' 6 01...... | ./trlab series | cut -d , -f 1,5

    say 'Several lanes reach their capacities one by one. A single car on a second lane adds its limit, 2, so each step
has the distance 7 + 2 = 9. For the whole road min(v N, E) would be 10:'
    job 2 'nasch 0' 17 000....0... 0.......... | ./trlab series --from 5 --every 4 | cut -d , -f 1,4,5

    say 'The cars of a sweep are evenly spaced and stopped. They only have to reach the limit first, here 5:'
    ./trlab sweep < examples/triangle.sweep | awk -F, -v v=5 '
        NR == 1 { next }
        { N = $1; E = $2 - N; T = $3; if ($4 != T * (v * N < E ? v * N : E)) wrong++ }
        END { print NR - 1 " points, " wrong + 0 " off the triangle" }'
    grep warm examples/triangle.sweep

    say 'docs/triangle.svg shows the triangles of four limits, and below them the same model with p = 0.25, as means of
eight random seeds. Drawn again as study/triangle.svg.'
    for limit in 1 2 3 5; do
        sed "s/^limit .*/limit $limit/" examples/triangle.sweep | ./trlab sweep > "study/limit $limit.csv"
    done
    sh docs/repeat.sh < examples/fundamental_diagram.sweep > "study/limit 5, p = 0.25.csv"
    awk -f docs/diagram.awk study/limit\ [1-5].csv "study/limit 5, p = 0.25.csv" > study/triangle.svg
}

waves() {
    heading 'Kinematic waves'
    say 'Seven cars on 12 cells with limit 3 have relaxed at step 4. Then the pattern moves back by one cell per step,
not by three:'
    job 3 'nasch 0' 100 000000..0... | ./trlab run > study/jam
    grep -v step study/jam | sed -n 5,8p
    awk -v from=4 -v ahead=-1 -f docs/laws/waves.awk study/jam

    say 'Two cars on the same road are in free flow, and the pattern moves ahead by three:'
    job 3 'nasch 0' 100 .00......... | ./trlab run | awk -v from=4 -v ahead=3 -f docs/laws/waves.awk

    say 'Before the lane has relaxed, the pattern also changes its form:'
    awk -v from=0 -v ahead=-1 -f docs/laws/waves.awk study/jam
}

minimum() {
    heading 'The minimum principle'
    say 'If cars go as far as gap and limit allow, the gaps of the first row give the distance of each car after any
number of steps. The last line has the distances after 5 steps:'
    job 3 "$GAP_RULE" 40 000..0....... | ./trlab run > study/gap
    awk -v v=3 -f docs/laws/minimum.awk study/gap > study/minimum
    awk -f docs/laws/distances.awk study/gap | cmp - study/minimum && echo same
    sed -n 6p study/minimum

    say 'The same holds for rule 184. With a larger limit nasch 0 first has to accelerate, and stays behind:'
    for limit in 1 3; do
        job $limit 'nasch 0' 40 000..0....... | ./trlab run > study/gap
        paste -d ' ' <(awk -f docs/laws/distances.awk study/gap) <(awk -v v=$limit -f docs/laws/minimum.awk study/gap) |
            awk '{ for (car = 1; car <= 4; car++) behind += $(car + 4) - $car } END { print behind + 0 " cells behind" }'
    done
}

classification() {
    heading 'Density classification'
    say 'Four of nine cells are occupied. From step min(4, 5) - 1 = 3 on, no two cars are neighbours:'
    job 1 'nasch 0' 4 0000..... | ./trlab run | grep -v step

    say 'Six of nine cells are occupied. From step 2 on, no two empty cells are neighbours:'
    job 1 'nasch 0' 3 00000...0 | ./trlab run | grep -v step
}

jams() {
    heading 'Free flow and jams'
    say 'Three cars drive at the limit with gaps of at least the limit. After 10 steps the road is rotated by 2 x 10
cells, which is two cells on a ring of 9. This holds under nasch 0, and also if only stopped cars brake at
random:'
    for rule in 'nasch 0' 'vdr 0 1073741824'; do
        job 2 "$rule" 10 2..2..2.. | ./trlab run | tail -1
    done

    say 'If stopped cars always brake, the initial road chooses one of two flows. These two roads have three cars on
ten cells each. The output is the last row of each run and its distance in 30 steps, 30 x 2 x 3 or 0:'
    for lane in 2..2...2.. 0..0...0..; do
        job 2 'vdr 0 2147483648' 30 $lane | ./trlab run | tail -1
        job 2 'vdr 0 2147483648' 30 $lane | ./trlab series --every 30 | tail -1 | cut -d , -f 5
    done

    say 'A car with gap 0 has speed 0 after the step, here with p = 1/4:'
    job 5 'nasch 536870912' 200 0000000..00...0.....0.... | ./trlab run | awk '
        $1 == "step" { next }
        {
            n = length($0)
            for (x = 0; x < n && before; x++)
                if (substr(before, x + 1, 1) != "." && substr(before, (x + 1) % n + 1, 1) != ".") {
                    cars++
                    if (substr($0, x + 1, 1) != "0") wrong++
                }
            before = $0
        }
        END { print cars " cars without a gap, " wrong + 0 " of them moved" }'

    say 'A queue dissolves from its front. Without randomization (left) one car starts per step. With p = 1/2 (right)
no car starts earlier than that:'
    seed 3
    for p in 0 1073741824; do
        job 5 "nasch $p" 6 00000.......... | ./trlab run | grep -v step > study/queue.$p
    done
    paste -d ' ' study/queue.0 study/queue.1073741824

    say 'With slow starts a queue dissolves more slowly, here with limit 1, p = 0 and r = 1/2. The line has the step in
which each car leaves its cell, from the front on. No two cars leave in one step, and on average they leave
about 1 / (1 - r) = 2 steps apart:'
    job 1 'vdr 0 1073741824' 60 \
        00000000000000000001................................................................ |
        ./trlab run | awk -f docs/laws/distances.awk | awk '
        { cars = NF; for (car = 1; car <= cars; car++) if ($car > 0 && !(car in left)) left[car] = NR - 2 }
        END { for (car = cars; car > 0; car--) printf "%d%s", left[car], (car > 1 ? " " : "\n") }'
}

faster() {
    heading 'Which rule is faster'
    say 'docs/fastest.svg compares nasch 0 with 17 other runs, all with the same initial queue of twelve cars on 60
cells. All their rules accelerate by at most one. Drawn again as study/fastest.svg.'
    sh docs/laws/fastest.sh > study/fastest.svg

    say 'That figure shows means. The law is about each car at each step:'
    for job in study/fan/*.job; do ./trlab run < "$job" | awk -f docs/laws/distances.awk > "${job%.job}.gone"; done
    for gone in study/fan/*.gone; do paste -d ' ' "$gone" 'study/fan/nasch, p = 0.gone'; done |
        awk -f docs/laws/farther.awk

    say 'Cars that drive as far as gap and limit allow can be ahead of nasch 0, but nobody beats them:'
    job 5 "$GAP_RULE" 60 "$QUEUE" | ./trlab run |
        awk -f docs/laws/distances.awk > study/gap.gone
    paste -d ' ' study/gap.gone 'study/fan/nasch, p = 0.gone' | awk -f docs/laws/farther.awk
    for gone in study/fan/*.gone; do paste -d ' ' "$gone" study/gap.gone; done | awk -f docs/laws/farther.awk

    say 'Randomization slows each step. The rows are one step from the same road of 100 cars with the same key, for p =
0, 0.25 and 0.5. Columns 4 and 5 are the distance and the stopped cars:'
    for p in 0 536870912 1073741824; do
        sed "s/^rule .*/rule nasch $p/; s/^warm .*/warm 0/; s/^measure .*/measure 1/" examples/fundamental_diagram.sweep |
            ./trlab sweep | grep '^100,'
    done

    say 'With limit 1 randomization also slows whole runs. With a larger limit it need not: with limit 2 these two
cars go farther if they brake more often.'
    seed 70
    for limit in 1 2; do
        for p in 536870912 1073741824; do
            job $limit "nasch $p" 10 0..0..... | ./trlab series --every 10 | tail -1 |
                awk -F, -v limit=$limit -v p=$p '{ print "limit " limit ", p = " p / 2 ^ 31 ", distance " $5 }'
        done
    done

    say 'With lane changes nasch 0 is not the fastest rule, because a blocked car can drive past the next car ahead.
These are the distances of the first step without and with lane changes; the car in the first cell goes 0 and
2 cells:'
    for rule in 'nasch 0' 'rickert 0 2147483648'; do
        job 2 "$rule" 1 10.......... ............ | ./trlab series | tail -1 | cut -d , -f 5
    done

    say 'On the second of these roads each car is one or two cells further. With limit 1 it stays ahead of the same car
on the first road, here in 60 steps with p = 1/2:'
    for lane in 00...0.... .0.0...0..; do
        job 1 'nasch 1073741824' 60 $lane | ./trlab run | awk -f docs/laws/distances.awk > study/ahead.$lane
    done
    paste -d ' ' study/ahead.00...0.... study/ahead..0.0...0.. | awk '
        BEGIN { split("1 2 2", lead, " ") }
        { for (car = 1; car <= 3; car++) { distances++; if ($car > lead[car] + $(car + 3)) passed++ } }
        END { print distances " distances, " passed + 0 " times a car has passed" }'

    say 'Lane changes cost nobody if cars change lanes only when this is safe. These are the distances of one step
without and with the lane changes of rickert, for three keys:'
    for k in 1 2 3; do
        seed $k
        for rule in 'nasch 536870912' 'rickert 536870912 2147483648'; do
            job 3 "$rule" 1 3.1.2...0.0...... ......3.......... | ./trlab series | tail -1 | cut -d , -f 5
        done | paste -d ' ' - -
    done

    say 'A car can lose if it changes lanes although the gap ahead is only as large as its speed. Here the car on the
second lane goes one cell without lane changes, but with them it moves into a gap of 0 and stops:'
    for change in '' 'change
side r0
jfalse r0, keep
get r0, lane
num r1, 1
jle r1, r0, over
keep: stay
over: cross
end'; do
        job 1 "own
motion
get r0, limit
get r1, gap
min r0, r0, r1
go r0
end
$change" 1 .0. 0.. | sed '/^$/d' | ./trlab run | tail -2
    done
}

braking() {
    heading 'Random braking'
    say 'Each random braking costs at least one cell, so D + B <= T E = 600 if B counts the brakings of cars with a
gap:'
    job 3 'nasch 715827883' 60 0.0..00....0... | ./trlab run | awk -v v=3 -f docs/laws/braking.awk

    say 'This bounds the flow of the two-lane model too. If all cars always brake, B = T N, so D <= T (v - 1) N. Two
cars on two lanes reach this bound:'
    job 3 'rickert 2147483648 2147483648' 60 2......... 2......... | ./trlab series --every 60 |
        cut -d , -f 2,4,5
}

exact() {
    heading 'The exact flow with limit 1'
    say 'This table compares rings of six cells with the exact mean flow of the stationary state, for p = 1/4. The
exact flow is larger than on a long ring, which has 0.25 at the density 1/2:'
    cat > study/six.sweep <<END
sweep 1
key $(printf '%064d' 0)
limit 1
length 6
lanes 1
rule nasch 536870912
warm 1000
measure 80000
cars 1
cars 2
cars 3
cars 4
cars 5
END
    ./trlab sweep < study/six.sweep | awk -v q=0.25 -f docs/laws/exact.awk
}

following() {
    heading 'Following cars'
    say 'A gap shrinks by the car'\''s own speed and grows by the speed of the next car ahead. Nobody overtakes, so the
next digit ahead is always the same car:'
    job 5 'nasch 536870912' 2 3...3..1..... | ./trlab run | grep -v step

    say 'This follows twelve cars in 200 steps:'
    job 5 'nasch 536870912' 200 "$QUEUE" | ./trlab run |
        awk -f docs/laws/gaps.awk

    say 'The gaps of a lane are its empty cells, and without lane changes each lane keeps its cars. For example, in 21
rows of two lanes:'
    job 5 'nasch 536870912' 20 3...3..1..... 0000......... | ./trlab run | grep -v step |
        awk '{ empty = gsub(/[.]/, ""); print empty " empty cells, " length($0) " cars" }' | sort | uniq -c | tr -s ' '

    say 'The distances of all cars add up to the distance of the run:'
    job 5 'nasch 0' 60 "$QUEUE" | ./trlab run | awk -f docs/laws/distances.awk |
        awk 'END { for (car = 1; car <= NF; car++) D += $car; print D }'
    job 5 'nasch 0' 60 "$QUEUE" | ./trlab series | awk -F, '{ D += $5 } END { print D }'
}

invariance() {
    heading 'Invariance'
    say 'A rotated road leads to the rotated road, if its cars keep their numbers and so their random numbers:'
    job 3 'nasch 536870912' 3 ..0.0.1... | ./trlab run | tail -1
    job 3 'nasch 536870912' 3 .0.0.1.... | ./trlab run | tail -1

    say 'Exchanged lanes lead to exchanged lanes:'
    job 3 'rickert 0 2147483648' 2 00..0..... .......0.. | ./trlab run | tail -2
    job 3 'rickert 0 2147483648' 2 .......0.. 00..0..... | ./trlab run | tail -2

    say 'Without lane changes the first lane does not depend on the second:'
    job 3 'nasch 536870912' 3 00..0..... .......0.. | ./trlab run | tail -2 | head -1
    job 3 'nasch 536870912' 3 00..0..... 0000000000 | ./trlab run | tail -2 | head -1

    say 'These two roads differ only by the car in cell 16. With limit 2, its influence in 4 steps reaches 8 cells each
way, so the first 8 cells stay the same:'
    for lane in 2...2...2...2...0......... 2...2...2...2.............; do
        job 2 'nasch 1073741824' 4 $lane | ./trlab run | tail -1
    done

    say 'nasch 0 gives the same run for every key, and the run becomes periodic:'
    for key in 0 7; do
        KEY=$(printf '%064d' $key) job 2 'nasch 0' 100 000000.............. | ./trlab run | grep -v step |
            awk '$0 in seen { print "step " NR - 1 " is like step " seen[$0]; exit } { seen[$0] = NR - 1 }'
    done

    say 'Slow starts with p = q, and lane changes with probability 0, are the Nagel-Schreckenberg model, byte for byte:'
    p=536870912
    job 5 "nasch $p" 20 3.0..2...1 0....1.... | ./trlab run > study/nasch
    for rule in "vdr $p $p" "rickert $p 0"; do
        job 5 "$rule" 20 3.0..2...1 0....1.... | ./trlab run | cmp - study/nasch && echo same
    done

    say 'With limit 1 nasch 0 is rule 184: the number of the rule lists the next states of a cell for its eight
neighbourhoods, with 1 for an occupied cell.'
    job 1 'nasch 0' 8 0000..0... | ./trlab run | awk '
        $1 == "step" { next }
        {
            gsub(/[01]/, "#")
            n = length($0)
            for (x = 0; x < n && before; x++) {
                around = 0
                for (k = -1; k <= 1; k++) around = 2 * around + (substr(before, (x + k + n) % n + 1, 1) == "#")
                cells++
                if ((substr($0, x + 1, 1) == "#") != int(184 / 2 ^ around) % 2) wrong++
            }
            before = $0
        }
        NR <= 8 { print }
        END { print cells " cells, " wrong + 0 " differ from rule 184" }'
}

detectors() {
    heading 'Detectors'
    say 'One lane of 27 cells has 5 cars and a detector at the end of each cell. Of each of the first two detectors this
line has its lane and cell, its passages in 400 steps and the most in six steps, and whether a car is in the
cell at the start and at the end:'
    job 5 'nasch 536870912' 400 3....0...2.....1....0...... | ./trlab run > study/lane
    awk -v span=6 -f docs/laws/detectors.awk study/lane > study/detectors
    head -n 2 study/detectors

    say 'The passages add up to the distance, and at most 5 cars pass in six steps. Between any two detectors no car is
lost or made, so their passages differ by at most the cells between them, and by at most the cars or the empty
cells:'
    awk -f docs/laws/continuity.awk study/detectors
    ./trlab series --every 400 < <(job 5 'nasch 536870912' 400 3....0...2.....1....0......) |
        cut -d , -f 1,4,5

    say 'A single detector measures the flow with an error of at most N E, here 12. This queue starts right behind the
end of cell 2 and ends right ahead of it, so it has exactly this error. A car waits while its gap is 3:'
    job 1 'own
motion
get r0, gap
num r1, 2
jle r0, r1, on
num r1, 4
jle r1, r0, on
num r0, 0
on: num r1, 1
min r0, r0, r1
go r0
end' 9 000.... | ./trlab run > study/lane
    sed -n '2p; $p' study/lane
    awk -v span=9 -f docs/laws/detectors.awk study/lane |
        awk '{ C[$2] = $3; D += $3 } END { print "C " C[2] ", D " D ", n C - D " 7 * C[2] - D }'

    say 'If cars change lanes, the same holds for rows of two detectors, one on each lane:'
    job 5 'rickert 536870912 2147483648' 400 \
        000000000000000............................................. \
        ..............................0....00....................... | ./trlab run |
        awk -v span=6 -f docs/laws/detectors.awk > study/detectors
    paste -d ' ' <(grep '^0' study/detectors) <(grep '^1' study/detectors) |
        awk '{ print "both", $2, $3 + $9, $4 + $10, $5 + $11, $6 + $12 }' |
        awk -v lanes=2 -f docs/laws/continuity.awk
}

mkdir -p study
[ $# -gt 0 ] || set -- "${PARTS[@]}"
for part in "$@"; do
    [ "$part" = "$1" ] || echo
    case " ${PARTS[*]} " in
        *" $part "*) "$part" ;;
        *) echo "$part is not one of the parts: ${PARTS[*]}" >&2; exit 2 ;;
    esac
done
