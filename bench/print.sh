#!/bin/bash
# How many instructions it takes to print a table, in millions: tables of 30,000, 60,000 and 120,000 fields with an
# integer each, at the top (wide), under a parent 61 levels down (deep) or in a struct that allows their labels alone
# (closed), and of one field that may be one of 40,000, 80,000 and 160,000 texts (texts). The making of the table is taken
# off, and the text is dropped again. The last column is the exponent of growth from the first size to the last: 1.00 is
# linear. The script ends with 1 where one is above 1.15. It takes some minutes.
# Usage, at the top of the repository: bench/print.sh [PROGRAM], where PROGRAM is what `rt run` makes of bench. It
# wants valgrind.
set -eu
. bench/instructions.sh
program=${1:-$(built bench)}
part=tables

worst=0
# a line: SHAPE COUNT COUNT COUNT
measure() {
    local shape=$1 costs= count making growth
    shift
    for count in "$@"; do
        making=$(instructions copy "$shape" "$count" 0)
        costs="$costs $(($(instructions print "$shape" "$count" 1) - making))"
    done
    set -- $costs
    growth=$(growth_of "$1" "$3")
    if is_steep "$growth"; then worst=1; fi
    awk -v shape="$shape" -v a="$1" -v b="$2" -v c="$3" -v growth="$growth" 'BEGIN {
        printf "%-8s %9.1f %9.1f %9.1f %8s\n", shape, a / 1e6, b / 1e6, c / 1e6, growth }'
}

printf '%-8s %9s %9s %9s %8s\n' shape n 2n 4n growth
for shape in wide deep closed; do
    measure "$shape" 30000 60000 120000
done
measure texts 40000 80000 160000
exit "$worst"
