# Reads the output of `trlab run` on one lane with the limit `v` under `nasch p`. Prints the distance D of all steps, how
# often a car with a gap braked at random (B), and the steps times the empty cells (T E).
$1 == "step" { time = $2; next }
{
    cells = length($0)
    split("", speed)
    for (cell = 0; cell < cells; cell++) if (substr($0, cell + 1, 1) != ".") speed[cell] = substr($0, cell + 1, 1)
    for (cell in speed) {
        for (gap[cell] = 0; !((cell + gap[cell] + 1) % cells in speed);) gap[cell]++
        distance += time > 0 ? speed[cell] : 0
        was = (cell - speed[cell] + cells) % cells
        if (time > 0 && speed[cell] < safe[was]) braked++
    }
    split("", safe)
    for (cell in speed) {
        safe[cell] = speed[cell] + 1 < v ? speed[cell] + 1 : v
        if (gap[cell] < safe[cell]) safe[cell] = gap[cell]
        empty += time > 0 ? 1 : 0
    }
}
END { print "D " distance ", B " braked + 0 ", T E " time * cells - empty }
