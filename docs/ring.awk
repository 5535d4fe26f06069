# An animation of the output of `trlab run` on one lane: a ring of cars, as an SVG image for browsers.
#
#   ./trlab run < examples/platoon.job | awk -f docs/ring.awk > ring.svg
#
# The run is shown again and again, five steps per second (with `-v steps=60` only its first 60 steps). The colour of a
# car is its speed, as in a space-time diagram. Snapshots must be of consecutive steps.

BEGIN {
    signs = "0123456789abcdefghijklmnopqrstuvwxyz"  # of speeds from 0
    # Red, green and blue of the colours of speeds at equal distances, as in spacetime.awk: dark red, orange, blue. Between
    # two neighbours of this scale lies an interval.
    intervals = split("122 16 22 208 66 24 243 154 46 142 196 232 76 142 200 26 86 150", scale, " ") / 3 - 1
}

$1 == "step" {
    if (shown && $2 != last + 1) refuse("the snapshots must be of consecutive steps: step " $2 " follows step " last)
    last = $2
    lane = 0
    is_over = steps != "" && shown > steps
    next
}

# The rest is read too, so that trlab can write it.
is_over { next }

!/^[0-9a-z.]+$/ { refuse("this is not the output of trlab run: " $0) }
lane++ { refuse("a ring has one lane, and this road has two") }

{
    cells = length($0)
    split("", car_now)
    for (cell = 0; cell < cells; cell++) {
        sign = substr($0, cell + 1, 1)
        if (sign != ".") place_car(cell, index(signs, sign) - 1)
    }
    split("", car_before)
    for (cell in car_now) car_before[cell] = car_now[cell]
    shown++
}

# Puts a car into the cell that it has reached; it came from the cell that is as far behind as its speed says.
function place_car(cell, speed,  car, origin) {
    origin = (cell - speed + cells) % cells
    if (shown && !(origin in car_before)) refuse("the cars of step " last " do not come from those of the step before")
    car = shown ? car_before[origin] : ++cars
    car_now[cell] = car
    distance[car] = shown ? distance[car] + speed : cell
    angles[car] = angles[car] (shown ? ";" : "") degrees(distance[car])
    speeds[car] = speeds[car] (shown ? " " : "") speed
    if (speed > fastest) fastest = speed
}

function refuse(why) {
    print "ring.awk: " why > "/dev/stderr"
    failed = 1
    exit 1
}

# The angle of a car that has driven this far, in degrees to the right of the top.
function degrees(driven) { return sprintf("%.5g", 360 * driven / cells) }

# The colour of a speed in three hexadecimal digits, from dark red for stopped cars to blue for the fastest ones.
function colour(speed,  place, k) {
    place = fastest ? intervals * speed / fastest : 0
    k = place < intervals ? int(place) : intervals - 1
    return sprintf("#%x%x%x", between(k, place - k, 1), between(k, place - k, 2), between(k, place - k, 3))
}

# Red (channel 1), green (2) or blue (3), from 0 to 15, at this share of an interval of the scale.
function between(k, share, channel) {
    return int((scale[3 * k + channel] * (1 - share) + scale[3 * k + 3 + channel] * share) / 17 + 0.5)
}

# A car moves during a step with the speed that the next snapshot shows.
function draw_car(car,  count, speed, k, colours, first_angle) {
    count = split(speeds[car], speed, " ")
    for (k = 2; k <= count; k++) colours = colours (k > 2 ? ";" : "") colour(speed[k])
    # Programs that show no movement show the first snapshot.
    first_angle = substr(angles[car], 1, index(angles[car], ";") - 1)
    printf "<circle cy=\"-120\" r=\"%.1f\" fill=\"%s\" transform=\"rotate(%s)\">", radius, colour(speed[1]), first_angle
    timing = sprintf("dur=\"%.1fs\" repeatCount=\"indefinite\"", (count - 1) / 5)
    printf "<animateTransform attributeName=\"transform\" type=\"rotate\" %s values=\"%s\"/>", timing, angles[car]
    printf "<animate attributeName=\"fill\" calcMode=\"discrete\" %s values=\"%s\"/></circle>\n", timing, colours
}

END {
    if (failed) exit 1
    if (shown < 2) refuse("an animation needs two snapshots: did trlab reject its input?")
    radius = 0.45 * 2 * 3.14159265 * 120 / cells
    radius = radius > 8 ? 8 : radius < 2 ? 2 : radius
    print "<svg xmlns=\"http://www.w3.org/2000/svg\" viewBox=\"-140 -140 280 280\" width=\"280\" height=\"280\">"
    print "<rect x=\"-140\" y=\"-140\" width=\"280\" height=\"280\" fill=\"white\"/>"
    printf "<circle r=\"120\" fill=\"none\" stroke=\"#e0e0e0\" stroke-width=\"%.1f\"/>\n", 2 * radius + 4
    for (car = 1; car <= cars; car++) draw_car(car)
    print "</svg>"
}
