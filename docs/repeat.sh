# Runs a sweep with eight random seeds and prints the eight tables, for a figure of their means with error bars:
#
#   sh docs/repeat.sh < examples/fundamental_diagram.sweep | awk -v limit=5 -f docs/diagram.awk > flow.svg
#
# Run it at the top of the repository, which has ./trlab. If a sweep fails, no table is printed, so that diagram.awk does not
# draw an incomplete figure.
set -e
sweep=$(sed '/^key /d')
tables=
for key in 1 2 3 4 5 6 7 8; do
    table=$(echo "$sweep" | sed "1a key $(printf %064d $key)" | ./trlab sweep) || {
        status=$?
        echo "repeat.sh: no table, because trlab sweep ended with status $status: $table" >&2
        exit "$status"
    }
    tables="$tables$table
"
done
printf %s "$tables"
