#!/bin/bash
# How many instructions it takes to resolve a text that was parsed, in thousands, at three sizes of it: chains of
# definitions that nothing uses, by their number; definitions that use the one before twice, by their number, where
# nothing uses the last one and where a field does (from the 14th on that is too large); fields with integers, and fields
# that use one definition; and 60 structs one in the other, by the fields of each, whose values are names. The reading,
# lexing and parsing of the text are taken off. The last column is the exponent of growth from the first size to the last:
# 1.00 is linear. At the end the longest chain that a text can have is resolved and dropped on a stack of 8 MiB. The
# script ends with 1 where a growth is above 1.15 or the chain fails. It takes some minutes.
# Usage, at the top of the repository: bench/scope.sh [PROGRAM], where PROGRAM is what `rt run` makes of bench. It
# wants valgrind.
set -eu
. bench/instructions.sh
program=${1:-$(built bench)}
part=scope
text=$(mktemp)
trap "rm -f '$text'" EXIT

worst=0
# a line: SHAPE COUNT COUNT COUNT, where the last count is four times the first
measure() {
    local shape=$1 row growth
    measure_growth "$@"
    set -- $row
    printf '%-8s %7s %9s %7s %9s %7s %9s %7s\n' "$shape" "$1" "$(($2 / 1000))" "$3" "$(($4 / 1000))" \
        "$5" "$(($6 / 1000))" "$growth"
}

printf '%-8s %7s %9s %7s %9s %7s %9s %7s\n' shape n of_n 2n of_2n 4n of_4n growth
measure chain 17500 35000 70000
measure doubled 15 30 60
measure reached 4 8 16
measure wide 7500 15000 30000
measure uses 5000 10000 20000
measure nested 125 250 500

printf 'reached, to the 13th, the 14th and the 17th: '
(for count in 13 14 17; do
    write_text reached "$count"
    "$program" "$part" "$text" 1
done) | paste -s -d '|' | sed 's/|/, /g'
printf 'the longest chain: '
write_text chain 74897
(ulimit -s 8192 && "$program" "$part" "$text" 1) || worst=1
exit "$worst"
