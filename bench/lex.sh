#!/usr/bin/env bash
# How long the lexer takes for texts of 256 KiB, 512 KiB and 1 MiB, in microseconds, and how the time grows for each byte
# from the first size to the last: 1.00 is linear. The script ends with 1 where a growth is above 1.20. It wants a machine
# that does nothing else.
# Usage, at the top of the repository: bench/lex.sh [PROGRAM], where PROGRAM is what `rt run` makes of cue_cases.
set -eu
program=${1:-crates/cue_cases/out/cue_cases}
. bench/growth.bash

generate() {
    local long
    long=$(repeat x 60000)
    case $1 in
        fields) repeat 'field: {a: 1, b: "text", c: [1, 2]}
' "$2" ;;
        strings) repeat "s: \"$long\"
" "$2" ;;
        escapes) repeat 's: "\\u00e9\\n\\ud83d\\ude00\\\\ "
' "$2" ;;
        comments) repeat "// $long
" "$2" ;;
        names) repeat "$long: 1
" "$2" ;;
        numbers) repeat '123456789012345678 ' "$2" ;;
        digits) repeat 1 "$2" ;;
        spaces) repeat ' ' "$2" ;;
        breaks) repeat 'a
' "$2" ;;
    esac
}

growth lex fields strings escapes comments names numbers digits spaces breaks
