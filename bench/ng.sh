#!/bin/bash
# Marks the same packets as a classic capture and as pcapng, in turns, and prints the best wall and processor times,
# the instructions of a record, their ratios, and the most memory that each took. Both have to mark the same packets
# alike, and to tell the same report. editcap (of Debian's wireshark-common) makes the pcapng capture, and takes the
# marked one apart again.
#
#     bench/ng.sh [RECORDS] [REPEATS] [WORKERS]
#
# Instructions are counted by `valgrind --tool=callgrind`, where it is there, on a twentieth of the records, without
# what a capture of no records takes.
set -eu

bench=$(CDPATH='' cd -- "$(dirname -- "$0")" && pwd)
program=${DSEDGE:-$bench/../crates/dsedge/out/dsedge}
count=${1:-1000000}
repeats=${2:-7}
workers=${3:-1}

if [ ! -x "$program" ]; then
    echo "ng.sh: $program is not built: ./dsedge builds it" >&2
    exit 2
fi
if [ -z "$(command -v editcap)" ]; then
    echo "ng.sh: there is no editcap" >&2
    exit 2
fi
folder=$(mktemp -d)
trap 'rm -rf "$folder"' EXIT

# The words that mark a capture, red frames kept.
words=("$program" mark "$folder/domain.toml" "$folder/certificate" --port port --red keep --workers "$workers")

# Marks the capture of a format, and notes its wall and processor time in ms.
taken() {
    TIMEFORMAT='%3R %3U %3S'
    { time "${words[@]}" < "$folder/in.$1" > "$folder/out.$1" 2> "$folder/report.$1"; } 2> "$folder/time"
    awk '{ print $1 * 1000, ($2 + $3) * 1000 }' "$folder/time" >> "$folder/times.$1"
}

# The least of a column of a format's times.
least() {
    cut -d ' ' -f "$2" "$folder/times.$1" | sort -n | head -n 1
}

# The instructions that a capture takes.
instructions() {
    valgrind --tool=callgrind --callgrind-out-file=/dev/null "${words[@]}" < "$1" 2>&1 > /dev/null |
        awk '/Collected/ { print $NF }'
}

# The most memory of a run on a capture, in KB, by GNU time.
memory() {
    /usr/bin/time -q -f %M -o "$folder/memory" "${words[@]}" < "$folder/in.$1" > /dev/null 2>&1
    tail -n 1 "$folder/memory"
}

rustc -O --edition 2021 -o "$folder/generate" "$bench/generate_capture/main.rs"
"$folder/generate" domain mixed > "$folder/domain.toml"
"$program" certify "$folder/domain.toml" > "$folder/certificate"
"$folder/generate" capture mixed "$count" > "$folder/in.pcap"
HOME=$folder editcap -F pcapng "$folder/in.pcap" "$folder/in.pcapng" 2> /dev/null
echo "$count records: classic $(wc -c < "$folder/in.pcap") bytes, pcapng $(wc -c < "$folder/in.pcapng") bytes, $workers workers, best of $repeats"
turn=0
while [ "$turn" -lt "$repeats" ]; do
    taken pcap
    taken pcapng
    turn=$((turn + 1))
done
cmp "$folder/report.pcap" "$folder/report.pcapng"
# the headings of files have 24 bytes
HOME=$folder editcap -F pcap "$folder/out.pcapng" "$folder/back.pcap" 2> /dev/null
cmp -i 24 "$folder/out.pcap" "$folder/back.pcap"
echo "the same packets with the same marks, and the same report"
for format in pcap pcapng; do
    awk -v name="$format" -v wall="$(least "$format" 1)" -v processor="$(least "$format" 2)" -v count="$count" \
        -v memory="$(memory "$format")" 'BEGIN {
        printf "%-7s wall %6.0f ms  processor %6.0f ms, %6.0f ns a record  %8d KB at most\n",
            name, wall, processor, processor * 1e6 / count, memory
    }'
done
awk -v a="$(least pcapng 1)" -v b="$(least pcap 1)" -v c="$(least pcapng 2)" -v d="$(least pcap 2)" 'BEGIN {
    printf "pcapng beside classic: wall %.2f, processor %.2f\n", a / b, c / d
}'
[ -n "$(command -v valgrind)" ] || exit 0
few=$((count / 20))
for records in 0 "$few"; do
    "$folder/generate" capture mixed "$records" > "$folder/few.pcap"
    HOME=$folder editcap -F pcapng "$folder/few.pcap" "$folder/few.pcapng" 2> /dev/null
    for format in pcap pcapng; do
        instructions "$folder/few.$format" >> "$folder/instructions.$format"
    done
done
awk -v few="$few" '
    FNR == 1 { none = $1; next }
    { each[FILENAME] = ($1 - none) / few; order[++formats] = FILENAME }
    END {
        a = each[order[2]]
        b = each[order[1]]
        printf "instructions a record: classic %.0f, pcapng %.0f, %.2f\n", b, a, a / b
    }' "$folder/instructions.pcap" "$folder/instructions.pcapng"
