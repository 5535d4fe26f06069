# Times per car and step from docs/speed.tsv, as an SVG image of bars:
#
#   awk -f docs/speed.awk docs/speed.tsv > docs/speed.svg
#
# It shows the rules on long roads, 100000 cells per lane, three cars on ten cells: a bar for each program that has one, and
# one for the random numbers of trlab without anything else.

BEGIN {
    FS = "\t"
    left = 140; right = 600; top = 20; thickness = 14
    colors = split("#0072b2 #999999 #e69f00 #009e73 #cc79a7", color, " ")
    split("trlab floor plain numba NumPy", shown, " ")
    split("trlab,its random numbers,plain Rust,numba,NumPy", name, ",")
}

# The heading names the columns.
$1 == "what" { for (k = 2; k <= NF; k++) column[$k] = k; next }

# A rule by itself, without another word after it.
$1 ~ /^[a-z]+[0-9 ]+$/ && $column["cells"] == 100000 && $column["cars"] == 30000 * $column["lanes"] {
    rule[++rules] = $1
    for (k = 1; k <= colors; k++) {
        time[rules, k] = $column[shown[k]] + 0
        if (time[rules, k] > slowest) slowest = time[rules, k]
    }
}

# A rule as its line in a file, and as probabilities: `nasch 536870912 (p = 0.25)`.
function title(line,  word, count, symbol, probabilities, k) {
    count = split(line, word, " ")
    split(word[1] == "rickert" ? "p c" : "p p0", symbol, " ")
    for (k = 2; k <= count; k++)
        probabilities = probabilities (k > 2 ? ", " : "") sprintf("%s = %.6g", symbol[k - 1], word[k] / 2147483648)
    return sprintf("%s (%s)", line, probabilities)
}

function across(x) { return left + (right - left) * x / slowest }

function text(x, y, anchor, words,  attributes) {
    printf "<text x=\"%.1f\" y=\"%.1f\" text-anchor=\"%s\"%s>%s</text>\n", x, y, anchor, attributes, words
}

# The bars of a rule below its name; returns the place of the next rule.
function bars(r, y,  k) {
    text(left, y, "start", title(rule[r]), " font-weight=\"bold\"")
    y += 6
    for (k = 1; k <= colors; k++) {
        if (!time[r, k]) continue
        text(left - 8, y + thickness - 3, "end", name[k])
        printf "<rect x=\"%.1f\" y=\"%.1f\" width=\"%.1f\" height=\"%d\" fill=\"%s\"/>\n",
            left, y, across(time[r, k]) - left, thickness - 2, color[k]
        text(across(time[r, k]) + 6, y + thickness - 3, "start", sprintf("%.1f", time[r, k]))
        y += thickness
    }
    return y + 26
}

# Grey lines at every ten nanoseconds, and their numbers below the bars.
function axis(bottom,  mark, x) {
    for (mark = 0; mark <= slowest; mark += 10) {
        x = across(mark)
        printf "<line x1=\"%.1f\" y1=\"%d\" x2=\"%.1f\" y2=\"%d\" stroke=\"#e0e0e0\"/>\n", x, top + 6, x, bottom
        text(x, bottom + 14, "middle", mark)
    }
}

END {
    for (r = 1; r <= rules; r++) for (k = 1; k <= colors; k++) if (time[r, k]) lines++
    bottom = top + rules * 32 + lines * thickness - 18
    height = bottom + 60
    printf "<svg xmlns=\"http://www.w3.org/2000/svg\" viewBox=\"0 0 660 %d\" font-family=\"sans-serif\" font-size=\"12\">\n", height
    printf "<rect width=\"660\" height=\"%d\" fill=\"white\"/>\n", height
    axis(bottom)
    y = top
    for (r = 1; r <= rules; r++) y = bars(r, y)
    text((left + right) / 2, bottom + 32, "middle", "nanoseconds per car and step")
    text(660 / 2, bottom + 52, "middle", "plain Rust: by hand, with the random numbers of trlab; numba and NumPy: with simpler ones")
    print "</svg>"
}
