# Reads the output of `trlab run` on one lane with the limit `v`. Prints one line per step: how far the minimum principle
# lets each car go until then, computed only from the gaps of the first row. Cars are in the order of their first cells.
$1 == "step" { time = $2; next }
time == 0 {
    cells = length($0)
    for (cell = 0; cell < cells; cell++) if (substr($0, cell + 1, 1) != ".") place[++cars] = cell
    for (car = 1; car <= cars; car++) gap[car] = (place[car % cars + 1] - place[car] - 1 + cells) % cells
}
{
    for (car = 1; car <= cars; car++) {
        far = v * time
        room = 0
        for (ahead = 1; ahead <= time; ahead++) {
            room += gap[(car + ahead - 2) % cars + 1]
            if (v * (time - ahead) + room < far) far = v * (time - ahead) + room
        }
        printf "%d%s", far, car < cars ? " " : "\n"
    }
}
