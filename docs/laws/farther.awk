# Compares two runs with the same cars: paste -d ' ' FIRST SECOND | awk -f docs/laws/farther.awk
# Both files have the lines of distances.awk.
{ for (car = 1; car <= NF / 2; car++) { distances++; if ($car > $(car + NF / 2)) farther++ } }
END { print distances " distances, " farther + 0 " of them farther than in the second run" }
