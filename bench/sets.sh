#!/bin/bash
# How long the meet, the union and the difference of two sets of 10,000, 20,000 and 40,000 pieces take, in milliseconds
# for 1,000 of each, and the unification of a list of so many sets, each of which lacks one integer (for 20 of them, as
# it stands in the conjunction `!=0 & !=8 & ..`). Then how the time grows for each piece from the first size to the last:
# 1.00 is linear, and a list that is unified by halves has 1.15. It is the processor's time in the program itself, the
# least of five runs, with the making of the sets taken off. The script ends with 1 where a growth is above 1.20.
# Usage, at the top of the repository: bench/sets.sh [PROGRAM], where PROGRAM is what `rt run` makes of bench.
set -eu
program=${1:-crates/bench/out/bench}
if [ ! -x "$program" ]; then
    (cd crates/bench && rt run > /dev/null)
fi

# the least milliseconds of five runs of the program: OPERATION PIECES ROUNDS
measure() {
    local TIMEFORMAT=%3U
    for _ in 1 2 3 4 5; do
        { time "$program" sets "$1" "$2" "$3" > /dev/null; } 2>&1 | tr -d . | sed 's/^0*//; s/^$/0/'
    done | sort -n | head -n 1
}

worst=0
printf '%-10s %8s %8s %8s %8s\n' operation 10,000 20,000 40,000 growth
for operation in meet union without meet_all; do
    row=
    rounds=1000
    if [ "$operation" = meet_all ]; then rounds=20; fi
    for pieces in 10000 20000 40000; do
        making=$(measure "$operation" "$pieces" 0)
        whole=$(measure "$operation" "$pieces" "$rounds")
        row="$row $((whole - making))"
    done
    set -- $row
    growth=$(awk -v a="$1" -v b="$3" 'BEGIN { printf "%.2f", b / (4 * a) }')
    worst=$(awk -v g="$growth" -v w="$worst" 'BEGIN { print (g > 1.2) ? 1 : w }')
    printf '%-10s %8s %8s %8s %8s\n' "$operation" "$1" "$2" "$3" "$growth"
done
exit "$worst"
