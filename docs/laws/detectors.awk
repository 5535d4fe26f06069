# Reads the output of `trlab run` with a limit up to 9. Puts one detector at the end of each cell of each lane, and
# prints a line for each: lane, cell, passages in all steps, most passages in `span` steps, and the cars in the cell at
# the start and at the end (0 or 1).
#
# A car with speed v has just passed the ends of the v cells behind it. Cars change lanes before they move, so these
# cells are on its new lane.
$1 == "step" { time = $2; lane = 0; next }
{
    cells = length($0)
    for (cell = 0; cell < cells; cell++) {
        speed = index("0123456789", substr($0, cell + 1, 1)) - 1
        last[lane, cell] = speed >= 0
        if (time == 0) first[lane, cell] = speed >= 0
        else for (back = 1; back <= speed; back++) passed[lane, (cell - back + cells) % cells, time] = 1
    }
    for (cell = 0; cell < cells; cell++) {
        passages[lane, cell] += passed[lane, cell, time]
        recent[lane, cell] += passed[lane, cell, time] - passed[lane, cell, time - span]
        if (recent[lane, cell] > most[lane, cell]) most[lane, cell] = recent[lane, cell]
    }
    lane++
}
END {
    for (l = 0; l < lane; l++)
        for (cell = 0; cell < cells; cell++)
            print l, cell, passages[l, cell], most[l, cell] + 0, first[l, cell], last[l, cell]
}
