# A space-time diagram of the output of `trlab run`, as an SVG image:
#
#   ./trlab run < examples/jams.job | awk -f docs/spacetime.awk > jams.svg
#
# Time runs down. The colour of a car is its speed, and empty cells are white. A grey line leads from each car to its
# next cell, and moving cars are flatter than their cells: otherwise fast cars at nearly equal distances would look like a
# pattern that moves backwards. Two lanes are drawn side by side. Snapshots may be several steps apart, at equal distances;
# then there are no lines.
#
# An output that ends after a whole snapshot is also that of a run with fewer steps, so that only the exit status of trlab
# shows whether it is complete; in bash, `set -o pipefail` gives it. An output that ends within a snapshot is rejected.

BEGIN {
    signs = "0123456789abcdefghijklmnopqrstuvwxyz"  # of speeds from 0
    left = 64; top = 30; gap = 24
    # Red, green and blue of the colours of speeds at equal distances, as in the page of trlab-lab: dark red, orange, blue.
    # Between two neighbours of this scale lies an interval.
    intervals = split("122 16 22 208 66 24 243 154 46 142 196 232 76 142 200 26 86 150", scale, " ") / 3 - 1
}

$1 == "step" {
    end_snapshot()
    if (!steps++) first = $2
    else if (steps == 2) every = $2 - first
    else if ($2 != first + (steps - 1) * every) refuse("the snapshots are not at equal distances of steps: step " $2)
    lane = 0
    split("", car_before)
    for (place in car_now) car_before[place] = car_now[place]
    split("", car_now)
    next
}

!steps { refuse("this is not the output of trlab run: " $0) }

{
    if (cells && length($0) != cells) refuse_lane()
    cells = length($0)
    for (x = 0; x < cells; x += run) {
        sign = substr($0, x + 1, 1)
        for (run = 1; substr($0, x + run + 1, 1) == sign; run++) { }
        if (sign == ".") continue
        draw(lane, index(signs, sign) - 1, x, run)
        for (k = 0; k < run; k++) follow(lane, index(signs, sign) - 1, x + k)
    }
    lane++
    if (steps == 1) lanes = lane
}

# Rejects a snapshot with fewer or more lanes than the first one.
function end_snapshot() {
    if (steps && (!lane || lane != lanes)) refuse_lane()
}

function refuse_lane() {
    refuse("line " NR " is not a whole lane, or a lane is missing above it: the run ended early, so run it again")
}

function refuse(why) {
    print "spacetime.awk: " why > "/dev/stderr"
    failed = 1
    exit 1
}

# Adds a run of neighbouring cars of one speed to the path of their lane and speed. The path moves from its end, which is
# (at_x, at_y), to the first of these cars.
function draw(lane, speed, x, run,  y) {
    y = steps - 1
    piece[lane, speed, y] = piece[lane, speed, y] \
        "m" x - at_x[lane, speed] " " y - at_y[lane, speed] "h" run
    at_x[lane, speed] = x + run
    at_y[lane, speed] = y
    if (speed > fastest) fastest = speed
}

# Continues the line of the car that has reached this cell. A car came from its own lane if there was one, and otherwise from
# the other lane. Then another line begins, as it does at the end of the road.
function follow(lane, speed, x,  origin, car) {
    origin = (x - speed + cells) % cells
    if (every == 1 && (lane, origin) in car_before) {
        car = car_before[lane, origin]
        move(car, speed)
        if (x < origin) {
            finish(car, lane)
            begin(car, origin - cells)
            move(car, speed)
        }
    } else if (every == 1 && (1 - lane, origin) in car_before) {
        car = car_before[1 - lane, origin]
        finish(car, 1 - lane)
        begin(car, x - speed)
        move(car, speed)
    } else begin(car = ++cars, x)
    car_now[lane, x] = car
}

# Begins the line of a car at this cell of the snapshot before; the first line begins in its own snapshot.
function begin(car, x) {
    trail[car] = "M" x " " (car in run_of ? steps - 2 : steps - 1)
    run_of[car] = 0
}

# Steps of the same speed are one piece of a line.
function move(car, speed) {
    if (run_of[car] && speed_of[car] != speed) trail[car] = trail[car] piece_of(car)
    run_of[car] = speed_of[car] == speed ? run_of[car] + 1 : 1
    speed_of[car] = speed
}

# The piece of a car's line for its last steps of one speed; nothing if there are none.
function piece_of(car,  count) {
    count = run_of[car]
    run_of[car] = 0
    return !count ? "" : speed_of[car] ? "l" speed_of[car] * count " " count : "v" count
}

# Ends the line of a car on its lane.
function finish(car, lane) {
    trail[car] = trail[car] piece_of(car)
    if (trail[car] ~ /[lv]/) trails[lane, ++count_of[lane]] = trail[car]
}

function text(x, y, anchor, words,  attributes) {
    printf "<text x=\"%.1f\" y=\"%.1f\" text-anchor=\"%s\"%s>%s</text>\n", x, y, anchor, attributes, words
}

function line(x1, y1, x2, y2) {
    printf "<line x1=\"%.1f\" y1=\"%.1f\" x2=\"%.1f\" y2=\"%.1f\" stroke=\"#404040\"/>\n", x1, y1, x2, y2
}

# The colour of a speed, from dark red for stopped cars to blue for the fastest ones.
function colour(speed,  place, k) {
    place = fastest ? intervals * speed / fastest : 0
    k = place < intervals ? int(place) : intervals - 1
    return sprintf("#%02x%02x%02x", between(k, place - k, 1), between(k, place - k, 2), between(k, place - k, 3))
}

# Red (channel 1), green (2) or blue (3) at this share of an interval of the scale.
function between(k, share, channel) {
    return int(scale[3 * k + channel] + (scale[3 * k + 3 + channel] - scale[3 * k + channel]) * share + 0.5)
}

# The distance of marks, 1, 2 or 5 times a power of ten, that leaves this room between them.
function mark_step(pixels_per_unit, room,  step, k) {
    step = 1
    for (k = 0; step * pixels_per_unit < room; k++) step *= k % 3 == 1 ? 2.5 : 2
    return step
}

# A lane: its frame, a path for each speed, and its axis of positions.
function panel(lane, x,  speed, y, step, mark, k) {
    printf "<rect x=\"%.1f\" y=\"%d\" width=\"%.1f\" height=\"%.1f\" fill=\"white\" stroke=\"#b0b0b0\"/>\n", x, top, wide, high
    # Nothing outside of the lane is shown: the line of a car that passes its end would go on there.
    printf "<svg x=\"%.1f\" y=\"%d\" width=\"%.1f\" height=\"%.1f\" viewBox=\"0 0 %d %d\" preserveAspectRatio=\"none\">\n", \
        x, top, wide, high, cells, steps
    if (count_of[lane]) {
        printf "<path fill=\"none\" stroke=\"#a0a0a0\" stroke-width=\"%.2f\" transform=\"translate(.5 .5)\" d=\"", \
            across < 6 ? 0.25 : 1.5 / across
        for (k = 1; k <= count_of[lane]; k++) print trails[lane, k]
        print "\"/>"
    }
    printf "<g%s>\n", across < 1 || down < 1 ? "" : " shape-rendering=\"crispEdges\""
    for (speed = 0; speed <= fastest; speed++) {
        if (!((lane, speed) in at_x)) continue
        printf "<path stroke=\"%s\"%s d=\"M0 .5\n", colour(speed), speed ? " stroke-width=\".6\"" : ""
        for (y = 0; y < steps; y++) if ((lane, speed, y) in piece) print piece[lane, speed, y]
        print "\"/>"
    }
    print "</g>\n</svg>"
    step = mark_step(across, 12 + 9 * length(cells))
    for (mark = 0; mark < cells; mark += step) {
        line(x + across * (mark + 0.5), top + high, x + across * (mark + 0.5), top + high + 5)
        text(x + across * (mark + 0.5), top + high + 19, "middle", mark)
    }
    text(x + wide / 2, top + high + 40, "middle", "position (cells)")
    if (lanes > 1) text(x + wide / 2, top - 9, "middle", "lane " lane)
}

# The axis of times.
function times(  step, mark, y) {
    if (every < 1) every = 1
    step = mark_step(down / every, 16)
    mark = int(first / step) * step
    if (mark < first) mark += step
    for (; mark <= first + (steps - 1) * every; mark += step) {
        y = top + down * ((mark - first) / every + 0.5)
        line(left - 5, y, left, y)
        text(left - 9, y + 4.5, "end", mark)
    }
    y = top + high / 2
    text(16, y, "middle", "time (steps)", sprintf(" transform=\"rotate(-90 16 %.1f)\"", y))
}

# The colours of the speeds.
function legend(x,  speed, y) {
    for (speed = fastest; speed >= 0; speed--) {
        y = top + box * (fastest - speed)
        printf "<rect x=\"%.1f\" y=\"%.1f\" width=\"16\" height=\"%.1f\" fill=\"%s\"/>\n", x, y, box, colour(speed)
        if (fastest < 12 || speed % 5 == 0) text(x + 22, y + box / 2 + 4.5, "start", speed)
    }
    text(x, top + box * (fastest + 1) + 20, "start", "speed")
    text(x, top + box * (fastest + 1) + 36, "start", "(cells per step)")
}

END {
    if (failed) exit 1
    end_snapshot()
    if (!cells) refuse("there is no snapshot: did trlab reject its input, or is `--from` after the last step?")
    fastest += 0
    # In an order of its own, because each awk goes through the elements of an array in another one.
    for (lane = 0; lane < lanes; lane++)
        for (cell = 0; cell < cells; cell++) if ((lane, cell) in car_now) finish(car_now[lane, cell], lane)
    across = (lanes > 1 ? 300 : 600) / cells
    if (across > 12) across = 12
    down = steps * across > 700 ? 700 / steps : across
    wide = across * cells; high = down * steps
    box = fastest < 12 ? 18 : 216 / (fastest + 1)
    right = left + lanes * wide + (lanes - 1) * gap
    low = box * (fastest + 1) + 40 > high + 50 ? box * (fastest + 1) + 40 : high + 50
    printf "<svg xmlns=\"http://www.w3.org/2000/svg\" viewBox=\"0 0 %.0f %.0f\" font-family=\"sans-serif\" font-size=\"13\">\n", \
        right + 130, top + low
    print "<rect width=\"100%\" height=\"100%\" fill=\"white\"/>"
    for (lane = 0; lane < lanes; lane++) panel(lane, left + lane * (wide + gap))
    times()
    legend(right + 24)
    print "</svg>"
}
