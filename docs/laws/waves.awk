# Reads the output of `trlab run` on one lane. Of the rows after step `from` it counts those whose occupied cells are the
# ones of the row before, moved ahead by `ahead` cells (back if it is negative).
$1 == "step" { time = $2; next }
{
    gsub(/[^.]/, "#")
    cells = length($0)
    if (time > from) {
        rows++
        if ($0 == substr(before before, (cells - ahead) % cells + 1, cells)) moved++
    }
    before = $0
}
END { print rows " steps, " moved + 0 " move the pattern by " ahead }
