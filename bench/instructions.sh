# What the scripts that count instructions have in common; they read it by `.`.

# the program of a crate, built where it is not there: CRATE
built() {
    local program=crates/$1/out/$1
    if [ ! -x "$program" ]; then
        (cd "crates/$1" && rt run > /dev/null)
    fi
    echo "$program"
}

# the instructions of a run of $program on its part $part with these words
instructions() {
    valgrind --tool=callgrind --callgrind-out-file=/dev/null "$program" "$part" "$@" 2>&1 > /dev/null |
        awk '/Collected/ { print $4 }'
}

# writes the text of a shape to $text: SHAPE COUNT
write_text() {
    awk -v part="$part" -v shape="$1" -v count="$2" -f bench/texts.awk > "$text"
}

# What a round on the text of a shape costs at three sizes, of which the last is four times the first: SHAPE COUNT COUNT
# COUNT. It leaves the counts and costs in turn in `row`, the exponent in `growth`, and 1 in `worst` where that is steep.
measure_growth() {
    local shape=$1 count making
    row=
    shift
    for count in "$@"; do
        write_text "$shape" "$count"
        making=$(instructions "$text" 0)
        row="$row $count $(($(instructions "$text" 1) - making))"
    done
    set -- $row
    growth=$(growth_of "$2" "$6")
    if is_steep "$growth"; then worst=1; fi
}

# the exponent of growth where four times the size costs so much more: COST COST
growth_of() {
    awk -v a="$1" -v b="$2" 'BEGIN { printf "%.2f", log(b / a) / log(4) }'
}

# whether a growth is above 1.15: GROWTH
is_steep() {
    awk -v growth="$1" 'BEGIN { exit !(growth > 1.15) }'
}
