#!/bin/bash
# How many instructions it takes to write a table as state bytes (encode) and to read them (decode), in millions: tables
# of 10,000, 20,000 and 40,000 fields, all at the top (wide) or under a parent 61 levels down (deep), and of one field
# that may be one of 125,000, 250,000 and 500,000 texts (texts). The making of the table is taken off; decode drops the
# table that it made. The column `growth` is the exponent of growth for each byte from the first size to the last: 1.00 is
# linear. Then, at the last size, the instructions for each byte, and how many times those of a copy of the bytes they
# are. At the end a table of 160,000 fields. The script ends with 1 where a growth is above 1.15. It takes some minutes.
# Usage, at the top of the repository: bench/codec.sh [PROGRAM], where PROGRAM is what `rt run` makes of bench.
# It wants valgrind.
set -eu
. bench/instructions.sh
program=${1:-$(built bench)}
part=tables

# the bytes of the state, and the instructions of encode, decode and copy: SHAPE COUNT
costs() {
    local making work
    making=$(instructions copy "$@" 0)
    "$program" "$part" copy "$@" 0
    for work in encode decode copy; do
        echo $(($(instructions "$work" "$@" 1) - making))
    done
}

worst=0
# two lines, which tell the growth between the first and the last count: SHAPE COUNT..
measure() {
    local shape=$1 first= last= all= count
    shift
    for count in "$@"; do
        last=$(costs "$shape" "$count" | paste -s -d ' ')
        first=${first:-$last}
        all="$all $last"
    done
    awk -v shape="$shape" -v counts="$*" -v all="$all" 'BEGIN {
        sizes = split(counts, count, " ")
        split(all, a, " ")
        end = 4 * (sizes - 1)
        for (work = 2; work <= 3; work++) {
            printf "%-6s %-6s", work == 2 ? "encode" : "decode", shape
            for (k = 1; k <= sizes; k++) printf " %7d %7.1f", count[k], a[4 * (k - 1) + work] / 1000000
            for (k = sizes; k < 3; k++) printf " %7s %7s", "", ""
            growth = sizes == 1 ? "-" : sprintf("%.2f", log(a[end + work] / a[work]) / log(a[end + 1] / a[1]))
            printf " %7s %9.1f %9.1f\n", growth, a[end + work] / a[end + 1], a[end + work] / a[end + 4]
            if (growth != "-" && growth > 1.15) worst = 1
        }
        exit worst
    }' || worst=1
}

printf '%-6s %-6s %7s %7s %7s %7s %7s %7s %7s %9s %9s\n' work shape n of_n 2n of_2n 4n of_4n growth per_byte to_copy
measure wide 10000 20000 40000
measure deep 10000 20000 40000
measure texts 125000 250000 500000
measure wide 160000
exit "$worst"
