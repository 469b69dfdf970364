#!/bin/bash
# How many instructions it takes to unify tables in place, in millions: 1,000 small tables of 30 new rows each into one
# of 30,000, 60,000 and 120,000 rows, which lie between its own; 1,000 of 30 rows that it has already; two equal tables;
# and two with no field in common. Wide tables have all rows under one parent, deep ones under a parent 61 levels down.
# The making of the tables is taken off.
# The last column is the exponent of growth from the first size to the last: 1.00 is linear. The script ends with 1 where
# one is above 1.15. It takes some minutes.
# Usage, at the top of the repository: bench/table.sh [PROGRAM], where PROGRAM is what `rt run` makes of bench. It
# wants valgrind.
set -eu
. bench/instructions.sh
program=${1:-$(built bench)}
part=unify

worst=0
# a line: WORK SHAPE
measure() {
    local costs= rows making growth
    for rows in 30000 60000 120000; do
        making=$(instructions "$1" "$2" "$rows" 0)
        costs="$costs $(($(instructions "$1" "$2" "$rows" 1000) - making))"
    done
    set -- "$1" "$2" $costs
    growth=$(growth_of "$3" "$5")
    if is_steep "$growth"; then worst=1; fi
    printf '%-10s %-5s %9s %9s %9s %8s\n' "$1" "$2" \
        "$(($3 / 1000000))" "$(($4 / 1000000))" "$(($5 / 1000000))" "$growth"
}

printf '%-10s %-5s %9s %9s %9s %8s\n' work shape 30,000 60,000 120,000 growth
for shape in wide deep; do
    for work in fragments known equal disjoint; do
        measure "$work" "$shape"
    done
done
exit "$worst"
