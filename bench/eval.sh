#!/bin/bash
# How many instructions it takes to evaluate a text that was resolved, in millions, at three sizes of it: n, 2n and 4n
# parts. The shapes are told in bench/texts.awk: fields, structs one in the other, services, disjunctions, texts, lists,
# uses of definitions, and texts that are made to cost much. The reading, lexing, parsing and resolving of the text are
# taken off, and the table is dropped again. The last column is the exponent of growth from the first size to the last:
# 1.00 is linear. The script ends with 1 where one is above 1.15. It takes some minutes.
# Usage, at the top of the repository: bench/eval.sh [PROGRAM [SHAPE..]], where PROGRAM is what `rt run` makes of
# bench, and only these shapes are measured. It wants valgrind.
set -eu
. bench/instructions.sh
program=${1:-$(built bench)}
part=eval
text=$(mktemp)
trap "rm -f '$text'" EXIT
shift $(($# > 0))
wanted=" $* "

worst=0
# a line: SHAPE COUNT COUNT COUNT, where the text with the last count is four times as large as that with the first
measure() {
    if [ "$wanted" != "  " ] && [[ "$wanted" != *" $1 "* ]]; then return; fi
    local shape=$1 row growth
    measure_growth "$@"
    awk -v shape="$shape" -v row="$row" -v growth="$growth" 'BEGIN {
        split(row, r, " ")
        printf "%-15s %7s %9.1f %7s %9.1f %7s %9.1f %8s\n", shape, r[1], r[2] / 1e6, r[3], r[4] / 1e6, r[5], r[6] / 1e6,
            growth }'
}

printf '%-15s %7s %9s %7s %9s %7s %9s %8s\n' shape n of_n 2n of_2n 4n of_4n growth
measure wide 7500 15000 30000
measure deep 125 250 500
measure services 180 360 720
measure disjunctions 30 60 120
measure integers 10000 20000 40000
measure other-integers 8000 16000 32000
measure texts 10000 20000 40000
measure other-texts 10000 20000 40000
measure elements 10000 20000 40000
measure structs 3000 6000 12000
measure uses 2000 4000 8000
measure parts 3000 6000 12000
# by the number of fields, 2^11 to 2^13
measure tower 11 12 13
measure unused 12000 24000 48000
measure reached 12000 24000 48000
measure handed 5000 10000 20000
measure closed 1000 2000 4000
measure same-label 4000 8000 16000
measure conjunction 4000 8000 16000
measure nested 1700 3400 6800
measure long-texts 3 6 12
exit "$worst"
