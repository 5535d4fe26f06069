# Tables of `sweep` as a fundamental diagram, or tables of `series` as distance against time, as an SVG image:
#
#   awk -f docs/diagram.awk flow.csv > flow.svg
#
# Each table is one curve, labelled with the name of its file; a table from standard input has no label. Tables whose names
# differ only after ", key" share one label: tables of `sweep` are one curve of means with bars of one standard error to both
# sides, and tables of `series` are curves of one colour. So are several tables from standard input.
#
#   awk -v limit=5 -f docs/diagram.awk flow.csv    also draws the flow without random braking, which is proved, in grey
#   awk -v changes=1 -f docs/diagram.awk flow.csv  draws the rate of lane changes instead of the flow
#
# A table of `sweep` that ends after a whole row is also the table of a sweep with fewer points, so that only the exit status
# of trlab shows whether it is complete. Tables that share one curve must have the same points. After an error of trlab,
# docs/repeat.sh prints no table, and in bash `set -o pipefail` gives the status of `./trlab sweep .. | awk ..`.

BEGIN {
    FS = ","
    left = 70; right = 560; top = 20; bottom = 340
    colors = split("#0072b2 #d55e00 #009e73 #cc79a7 #e69f00 #56b4e9", color, " ")
    sweep_heading = "cars,cells,steps,distance,stopped,changes,flow"
    series_heading = "step," sweep_heading ",cars0,distance0,stopped0,cars1,distance1,stopped1"
}

# A table begins.
$0 == sweep_heading || $0 == series_heading {
    if (tables && is_series != ($1 == "step")) refuse("tables of `sweep` and of `series` are not drawn together")
    is_series = $1 == "step"
    tables++
    label[tables] = FILENAME
    sub(/^.*\//, "", label[tables])
    sub(/\.csv$/, "", label[tables])
    sub(/, key .*$/, "", label[tables])
    if (!(label[tables] in paint)) {
        labels++
        paint[label[tables]] = color[(labels - 1) % colors + 1]
        row[label[tables]] = labels
        curve_of[label[tables]] = tables
    }
    end_table(tables - 1)
    if (is_series) add_point(0, 0)
    columns = NF
    next
}

FNR == 1 { refuse("this is not a table of trlab sweep or trlab series: " $0) }
!/^[0-9]+(,[0-9]+)+$/ || NF != columns || !is_row(is_series) { refuse("line " FNR " is not a row of the table: " $0) }

# A window of a series: how far a car has come by its end, as a mean over all cars.
is_series && $2 > 0 { add_point($1, y[tables, points[tables]] + $5 / $2); next }

# A point of a fundamental diagram: its flow or rate of lane changes, on the curve of the first table with its label.
!is_series {
    check_point($1 "," $2 "," $3)
    add_result(curve_of[label[tables]], $1 / $2, !changes ? $7 / 1000000 : $1 * $3 ? 1000 * $6 / ($1 * $3) : 0)
}

# Whether the flow of a row follows from its distance, cells and steps: in a row that is cut off it does not. This number of
# columns comes before those of a sweep.
function is_row(before,  area, difference) {
    area = $(2 + before) * $(3 + before)
    difference = area ? $(4 + before) / area - $(7 + before) / 1000000 : 1
    return difference > -0.000001 && difference < 0.000002
}

# Rejects a row if the first table of the curve has another point there.
function check_point(point,  first_table) {
    first_table = curve_of[label[tables]]
    rows[tables]++
    if (first_table == tables) point_of[tables, rows[tables]] = point
    else if (point_of[first_table, rows[tables]] != point)
        refuse_rows("table " tables " has other cars, cells, steps or more rows")
}

# Rejects a table with fewer rows than the first table of the curve.
function end_table(t) {
    if (t && !is_series && rows[t] < rows[curve_of[label[t]]]) refuse_rows("table " t " has only " rows[t] + 0 " rows")
}

function refuse_rows(which) {
    refuse("tables of one curve must have the same points, but " which ": if a sweep ended early, run it again")
}

function refuse(why) {
    print "diagram.awk: " why > "/dev/stderr"
    failed = 1
    exit 1
}

# Adds a point to the curve of the last table.
function add_point(point_x, point_y) {
    points[tables]++
    x[tables, points[tables]] = point_x
    y[tables, points[tables]] = point_y
    fit(point_x, point_y)
}

# Makes room for a point.
function fit(point_x, point_y) {
    if (point_x > widest) widest = point_x
    if (point_y > highest) highest = point_y
}

# Adds a result to the point of a curve at this density. The squares are of distances from the first result, so that rounding
# does not matter.
function add_result(t, density, result,  k) {
    if (!((t, density) in number)) {
        number[t, density] = ++points[t]
        x[t, points[t]] = density
        base[t, points[t]] = result
    }
    k = number[t, density]
    results[t, k]++
    sum[t, k] += result - base[t, k]
    squares[t, k] += (result - base[t, k]) ^ 2
}

# The means of a curve, and their standard errors if there are several results.
function take_means(t,  k, count, variance) {
    for (k = 1; k <= points[t]; k++) {
        count = results[t, k]
        y[t, k] = base[t, k] + sum[t, k] / count
        if (count > 1) {
            variance = (squares[t, k] - sum[t, k] ^ 2 / count) / (count - 1)
            error[t, k] = variance > 0 ? sqrt(variance / count) : 0
        }
        fit(x[t, k], y[t, k] + error[t, k])
    }
}

# The places of a point in the image.
function across(x) { return left + (right - left) * x / width }
function up(y) { return bottom - (bottom - top) * y / height }

# The step between marks for values up to a maximum: 1, 2 or 5 times a power of ten, 4 to 10 marks.
function mark_step(maximum,  step) {
    for (step = 1000; step * 4 > maximum; step /= 10) { }
    return maximum / step > 20 ? step * 5 : maximum / step > 10 ? step * 2 : step
}

function text(x, y, anchor, words,  attributes) {
    printf "<text x=\"%.1f\" y=\"%.1f\" text-anchor=\"%s\"%s>%s</text>\n", x, y, anchor, attributes, words
}

function line(x1, y1, x2, y2, stroke) {
    printf "<line x1=\"%.1f\" y1=\"%.1f\" x2=\"%.1f\" y2=\"%.1f\" stroke=\"%s\"/>\n", x1, y1, x2, y2, stroke
}

# The axes with their marks and grey lines, and the words below and beside them.
function axes(below, beside,  step, k) {
    step = mark_step(width)
    for (k = 0; step * k < width * 1.001; k++) {
        line(across(step * k), bottom, across(step * k), top, "#e0e0e0")
        text(across(step * k), bottom + 18, "middle", step * k)
    }
    step = mark_step(height)
    for (k = 0; step * k < height * 1.001; k++) {
        line(left, up(step * k), right, up(step * k), "#e0e0e0")
        text(left - 8, up(step * k) + 4, "end", step * k)
    }
    line(left, bottom, right, bottom, "#404040")
    line(left, bottom, left, top, "#404040")
    text((left + right) / 2, bottom + 42, "middle", below)
    text(22, (top + bottom) / 2, "middle", beside, sprintf(" transform=\"rotate(-90 22 %.1f)\"", (top + bottom) / 2))
}

# A curve, with a circle and a bar for its error at each point of a fundamental diagram.
function curve(t,  k) {
    printf "<polyline fill=\"none\" stroke=\"%s\" stroke-width=\"1.5\" points=\"", paint[label[t]]
    for (k = 1; k <= points[t]; k++) printf "%.1f,%.1f ", across(x[t, k]), up(y[t, k])
    print "\"/>"
    for (k = 1; k <= points[t] && !is_series; k++) {
        if (error[t, k]) bar(across(x[t, k]), up(y[t, k] - error[t, k]), up(y[t, k] + error[t, k]), paint[label[t]])
        printf "<circle cx=\"%.1f\" cy=\"%.1f\" r=\"3\" fill=\"%s\"/>\n", across(x[t, k]), up(y[t, k]), paint[label[t]]
    }
}

# The bar of an error, with a short line at both ends.
function bar(x, low, high, stroke) {
    printf "<path fill=\"none\" stroke=\"%s\" d=\"M%.1f %.1fV%.1fm-3 0h6M%.1f %.1fh6\"/>\n", stroke, x, low, high, x - 3, low
}

# The flow without random braking: the proved triangle, up to the highest density.
function triangle(  peak, end) {
    peak = 1 / (limit + 1)
    end = widest > 1 ? 1 : widest
    printf "<polyline fill=\"none\" stroke=\"#909090\" points=\"%.1f,%.1f ", across(0), up(0)
    if (end > peak) printf "%.1f,%.1f ", across(peak), up(limit * peak)
    printf "%.1f,%.1f\"/>\n", across(end), up(end > peak ? 1 - end : limit * end)
    text(right - 8, top + 18 * (named + 1), "end", "v_max = " limit ", p = 0, proved", " fill=\"#707070\"")
}

# The label of curves: on the right in their colour, or, in the empty corner of distances, after a line in it.
function legend(name,  y) {
    if (name == "" || name == "-") return
    y = top + 18 * row[name]
    named = row[name]
    if (!is_series) text(right - 8, y, "end", name, " fill=\"" paint[name] "\"")
    else {
        line(left + 14, y - 4, left + 38, y - 4, paint[name])
        text(left + 46, y, "start", name)
    }
}

END {
    if (failed) exit 1
    if (!tables) refuse("there is no table: did trlab reject its input, or end early?")
    end_table(tables)
    for (t = 1; t <= tables && !is_series; t++) if (curve_of[label[t]] == t) take_means(t)
    has_triangle = limit > 0 && !is_series && !changes
    if (has_triangle && highest < limit / (limit + 1)) highest = limit / (limit + 1)
    width = widest > 0 ? widest : 1
    height = highest > 0 ? highest * 1.05 : 1
    print "<svg xmlns=\"http://www.w3.org/2000/svg\" viewBox=\"0 0 580 400\" font-family=\"sans-serif\" font-size=\"13\">"
    print "<rect width=\"580\" height=\"400\" fill=\"white\"/>"
    if (is_series) axes("time (steps)", "mean distance per car (cells)")
    else axes("density (cars per cell)", changes ? "lane changes per 1000 car-steps" : "flow (cars per step and lane)")
    for (t = 1; t <= tables; t++) {
        if (is_series || curve_of[label[t]] == t) curve(t)
        if (curve_of[label[t]] == t) legend(label[t])
    }
    if (has_triangle) triangle()
    print "</svg>"
}
