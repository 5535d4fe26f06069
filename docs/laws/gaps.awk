# Reads the output of `trlab run` on one lane with a limit up to 9. Follows each car from row to row, and counts the
# cars whose gap is not the old gap plus the next car's speed minus their own, and those with another car ahead.
$1 == "step" { next }
{
    cells = length($0)
    split("", speed)
    for (x = 0; x < cells; x++) if (substr($0, x + 1, 1) != ".") speed[x] = substr($0, x + 1, 1)
    for (x in speed) {
        for (gap[x] = 0; !((x + gap[x] + 1) % cells in speed);) gap[x]++
        ahead[x] = (x + gap[x] + 1) % cells
    }
    if (rows++) for (x in speed) {
        old = (x - speed[x] + cells) % cells
        next_car = ahead[x]
        cars++
        if (gap[x] + speed[x] != old_gap[old] + speed[next_car]) wrong++
        if ((next_car - speed[next_car] + cells) % cells != old_ahead[old]) other++
    }
    for (x in speed) { old_gap[x] = gap[x]; old_ahead[x] = ahead[x] }
}
END { print cars " cars followed, " wrong + 0 " with another gap, " other + 0 " with another car ahead" }
