# Reads the output of `trlab run` on one lane with a limit up to 9. Prints one line per step: how far each car has gone,
# in cells since step 0. Cars are in the order of their first cells.
$1 == "step" { next }
{
    cells = length($0)
    split("", now)
    for (cell = 0; cell < cells; cell++) {
        speed = index("0123456789", substr($0, cell + 1, 1)) - 1
        if (speed < 0) continue
        now[cell] = NR > 2 ? before[(cell - speed + cells) % cells] : ++cars
        if (NR > 2) gone[now[cell]] += speed
    }
    split("", before)
    for (cell in now) before[cell] = now[cell]
    for (car = 1; car <= cars; car++) printf "%d%s", gone[car], car < cars ? " " : "\n"
}
