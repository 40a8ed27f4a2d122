#!/bin/sh
# Sees the frames of a capture in memory, 100 contracts: by the stage of marking, in one thread, and by `see_all` with one to four
# threads, in turns, and prints the best times a frame.
#
#     bench/seeing.sh [FRAMES] [PASSES] [REPEATS]
set -eu

bench=$(CDPATH='' cd -- "$(dirname -- "$0")" && pwd)
. "$bench/common.sh"
count=${1:-100000}
passes=${2:-20}
repeats=${3:-9}
folder=$(mktemp -d)
trap 'rm -rf "$folder"' EXIT

build seeing capture_reader ds_checker ds_conditioner ds_conductor ds_domain_base dsedge_texts frame_marker pcap_capture
rustc -O --edition 2021 -o "$folder/generate" "$bench/generate_capture/main.rs"
"$folder/generate" domain mixed > "$folder/domain.toml"
"$folder/generate" capture mixed "$count" > "$folder/in.pcap"
cd "$folder"

turn=0
while [ "$turn" -lt "$repeats" ]; do
    for seers in 0 1 2 3 4; do
        timed in.pcap none "$proved" "$seers" 0 >> "none.$seers.times"
        timed in.pcap "out.$seers" "$proved" "$seers" "$passes" >> "$seers.times"
    done
    turn=$((turn + 1))
done
echo "$count frames, best of $repeats, without what stands before them"
for seers in 0 1 2 3 4; do
    cmp out.0 "out.$seers"
    time=$(($(best "$seers.times") - $(best "none.$seers.times")))
    awk -v seers="$seers" -v time="$time" -v frames="$((count * passes))" 'BEGIN {
        printf "%-22s %6.1f ns a frame\n", seers ? "see_all by " seers : "the stage", time / frames
    }'
done
