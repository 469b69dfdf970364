#!/usr/bin/env bash
# How long the parser takes for the tokens of texts of 256 KiB, 512 KiB and 1 MiB, in microseconds, and how the time grows
# for each byte from the first size to the last: 1.00 is linear. Each tree is walked and dropped too. The script ends with
# 1 where a growth is above 1.20, or where a text is not parsed. It wants a machine that does nothing else.
# Usage, at the top of the repository: bench/parse.sh [PROGRAM], where PROGRAM is what `rt run` makes of cue_cases.
set -eu
program=${1:-crates/cue_cases/out/cue_cases}
. bench/growth.bash

generate() {
    local open close
    case $1 in
        fields) repeat 'field: {a: 1, b: "text", c: [1, 2]}
' "$2" ;;
        braces)
            open=$(repeat 'a:{' 192)
            close=$(repeat '}' 64)
            repeat "$open$close
" "$2" ;;
        labels) repeat "$(repeat 'a: ' 195)1
" "$2" ;;
        elements) printf 'a: ['; repeat '1,' $(($2 - 8)); printf ']' ;;
        conjunction) printf 'a: 1'; repeat '&1' $(($2 - 8)) ;;
        disjunction) printf 'a: 1'; repeat '|1' $(($2 - 8)) ;;
        marked) printf 'a: 1'; repeat '|*1' $(($2 - 8)) ;;
        definitions) repeat '#Name: close({a?: int, b!: >=0 & <10})
' "$2" ;;
    esac
}

growth parse fields braces labels elements conjunction disjunction marked definitions
