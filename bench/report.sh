#!/bin/bash
# How many instructions it takes to list the conflicts of a table, its gaps, and to export it, in millions: tables of
# 30,000, 60,000 and 120,000 fields with an integer each, at the top (wide) or under a parent 61 levels down (deep), with
# as many gaps as fields (open) or as many conflicts (clashing). What is counted is the second of two rounds, so that the
# making of the table is taken off; what is listed is dropped again. The last column is the exponent of growth from the
# first size to the last: 1.00 is linear. The script ends with 1 where one is above 1.15. It takes some minutes.
# Usage, at the top of the repository: bench/report.sh [PROGRAM], where PROGRAM is what `rt run` makes of bench.
# It wants valgrind.
set -eu
. bench/instructions.sh
program=${1:-$(built bench)}
part=tables

worst=0
# a line: WORK SHAPE
measure() {
    local costs= count first growth
    for count in 30000 60000 120000; do
        first=$(instructions "$1" "$2" "$count" 1)
        costs="$costs $(($(instructions "$1" "$2" "$count" 2) - first))"
    done
    set -- "$1" "$2" $costs
    growth=$(growth_of "$3" "$5")
    if is_steep "$growth"; then worst=1; fi
    awk -v work="$1" -v shape="$2" -v a="$3" -v b="$4" -v c="$5" -v growth="$growth" 'BEGIN {
        printf "%-10s %-8s %9.1f %9.1f %9.1f %8s\n", work, shape, a / 1e6, b / 1e6, c / 1e6, growth }'
}

printf '%-10s %-8s %9s %9s %9s %8s\n' work shape 30,000 60,000 120,000 growth
for shape in wide deep open clashing; do
    for work in conflicts incomplete export; do
        measure "$work" "$shape"
    done
done
exit "$worst"
