#!/bin/bash
# Times `dsedge meter`, for each kind and mode, and `dsedge envelope` beside the plain program on one file of lines, in
# turns, and prints the best wall and processor times, their ratios and the most memory. Both outputs have to be the same.
#
#     bench/run.sh [LINES] [REPEATS]
set -eu

bench=$(CDPATH='' cd -- "$(dirname -- "$0")" && pwd)
proved=$bench/../crates/dsedge/out/dsedge
count=${1:-1000000}
repeats=${2:-7}

if [ ! -x "$proved" ]; then
    echo "run.sh: $proved is not built: ./dsedge builds it" >&2
    exit 2
fi
folder=$(mktemp -d)
trap 'rm -rf "$folder"' EXIT

rustc -O --edition 2021 -o "$folder/plain" "$bench/plain/main.rs"
"$bench/generate.sh" "$count" > "$folder/arrivals"
cut -d ' ' -f 1,2 "$folder/arrivals" > "$folder/sized"

# Runs a program on an input, and notes its wall and processor time in ms.
#
#     taken NAME INPUT PROGRAM WORD..
taken() {
    name=$1
    input=$2
    shift 2
    TIMEFORMAT='%3R %3U %3S'
    # an envelope that is not kept ends with status 1
    { time "$@" < "$input" > "$folder/$name.out" || true; } 2> "$folder/time"
    awk '{ print $1 * 1000, ($2 + $3) * 1000 }' "$folder/time" >> "$folder/$name.times"
}

# The most memory of a program with these words on an input, in KB.
memory_of() {
    input=$1
    shift
    /usr/bin/time -q -o "$folder/memory" -f '%M' "$@" < "$input" > /dev/null || true
    cat "$folder/memory"
}

# The least of a column of a program's times.
least() {
    cut -d ' ' -f "$2" "$folder/$1.times" | sort -n | head -n 1
}

# Times both programs with the same words on an input, in turns.
#
#     beside INPUT WORD..
beside() {
    input=$1
    shift
    rm -f "$folder"/*.times
    turn=0
    while [ "$turn" -lt "$repeats" ]; do
        taken proved "$input" "$proved" "$@"
        taken plain "$input" "$folder/plain" "$@"
        turn=$((turn + 1))
    done
    cmp "$folder/proved.out" "$folder/plain.out"
    awk -v words="$*" -v a="$(least proved 1)" -v b="$(least plain 1)" -v c="$(least proved 2)" -v d="$(least plain 2)" \
        -v memory="$(memory_of "$input" "$proved" "$@")" 'BEGIN {
            printf "%6.1f ms beside %6.1f: %.2f   processor %4.0f ms beside %4.0f: %.2f   %d KB   %s\n",
                a, b, a / b, c, d, c / d, memory, words
        }'
}

echo "$count lines, best of $repeats; proved beside plain"
for mode in blind aware; do
    committed="--mode $mode --cir 800000000 --cbs 150000"
    # shellcheck disable=SC2086
    beside "$folder/arrivals" meter --kind srtcm $committed --ebs 300000
    # shellcheck disable=SC2086
    beside "$folder/arrivals" meter --kind trtcm $committed --pir 1600000000 --pbs 300000
    # shellcheck disable=SC2086
    beside "$folder/arrivals" meter --kind rfc4115 $committed --eir 800000000 --ebs 150000
done
beside "$folder/sized" envelope --rate 1600000000 --burst 100000000
