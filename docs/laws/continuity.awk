# Reads the lines of detectors.awk for one lane, or the sums of the lines for `lanes` lanes. Compares every two places.
{ cell = ++cells; passages[cell] = $3; most = $4 > most ? $4 : most; grown[cell] = $6 - $5; distance += $3; cars += $5 }
END {
    lanes = lanes ? lanes : 1
    few = cars < lanes * cells - cars ? cars : lanes * cells - cars
    for (x = 1; x <= cells; x++) {
        off = cells * passages[x] - distance
        if (off > cells * few || -off > cells * few) far_off++
        more = 0
        for (y = x + 1; y <= cells; y++) {
            more += grown[y]
            pairs++
            if (passages[x] != passages[y] + more) lost++
            apart = passages[x] > passages[y] ? passages[x] - passages[y] : passages[y] - passages[x]
            if (apart > few || apart > lanes * (y - x)) far_apart++
        }
    }
    print "distance " distance ", most passages " most
    print pairs " pairs, " lost + 0 " lose cars, " far_apart + 0 " are too far apart"
    print cells " places, " far_off + 0 " are too far from the mean"
}
