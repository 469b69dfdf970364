# For bench/lex.sh and bench/parse.sh: times cue_cases on texts of 256 KiB, 512 KiB and 1 MiB. The caller has
# `generate SHAPE SIZE`, which writes a text of that shape and at most that size.

# The C library keeps the memory that is given back and asks for large pages. What is measured is the program then, and
# not how the machine finds, gives and takes pages.
export MALLOC_MMAP_THRESHOLD_=1073741824 MALLOC_TRIM_THRESHOLD_=4294967295 GLIBC_TUNABLES=glibc.malloc.hugetlb=1

# repeat UNIT SIZE: the unit again and again, no more than SIZE bytes in all
repeat() {
    awk -v unit="$1" -v size="$2" 'BEGIN { n = length(unit); for (k = 0; k + n <= size; k += n) printf "%s", unit }'
}

# measure WHAT FILE: the least microseconds that seven runs of the program tell, each of which reads the text some times
measure() {
    for _ in 1 2 3 4 5 6 7; do
        "$program" "$1" "$2" | sed 's/.*, \([0-9]*\) microseconds$/\1/'
    done | sort -n | head -n 1
}

# growth WHAT SHAPE..: a line for each shape. Ends with 1 where a growth is above 1.20.
growth() {
    local what=$1 text worst=0 shape row size
    shift
    if [ ! -x "$program" ]; then
        (cd crates/cue_cases && rt run -- texts data/parse.tsv > /dev/null)
    fi
    text=$(mktemp)
    trap "rm -f '$text'" EXIT
    printf '%-12s %8s %8s %8s %8s\n' shape 256KiB 512KiB 1MiB growth
    for shape in "$@"; do
        row=
        for size in 262144 524288 1048576; do
            generate "$shape" "$size" > "$text"
            row="$row $(wc -c < "$text") $(measure "$what" "$text")"
        done
        awk -v shape="$shape" -v row="$row" 'BEGIN {
            split(row, r, " ")
            printf "%-12s %8s %8s %8s %8.2f\n", shape, r[2], r[4], r[6], (r[6] / r[5]) / (r[2] / r[1])
        }'
        worst=$(awk -v row="$row" -v worst="$worst" 'BEGIN {
            split(row, r, " ")
            growth = (r[6] / r[5]) / (r[2] / r[1])
            print (growth > worst ? growth : worst)
        }')
    done
    awk -v worst="$worst" 'BEGIN { exit worst > 1.20 }'
}
