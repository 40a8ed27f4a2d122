#!/bin/sh
# Meters 10,000,000 packets in memory (ten passes over 1,000,000), through each meter and mode, by the proved meters and
# by plain ones, in turns, and prints the best times and their ratio. The colours have to be the same.
#
#     bench/meters.sh [PASSES] [REPEATS]
set -eu

bench=$(CDPATH='' cd -- "$(dirname -- "$0")" && pwd)
. "$bench/common.sh"
passes=${1:-10}
repeats=${2:-9}
folder=$(mktemp -d)
trap 'rm -rf "$folder"' EXIT

build meters meter_book moment_core rfc4115_core srtcm_core trtcm_core
rustc -O --edition 2021 -o "$folder/plain" "$bench/plain_meters/main.rs"

echo "$passes passes over 1000000 packets, best of $repeats, without the time to make the packets"
for kind in srtcm trtcm rfc4115; do
    for mode in blind aware; do
        beside "$repeats" "$kind" "$mode" "$passes"
        awk -v kind="$kind" -v mode="$mode" -v count="$((passes * 1000000))" -v left="$(cat "$folder/plain.out")" \
            -v proved="$proved_time" -v plain="$plain_time" 'BEGIN {
                printf "%-8s %-6s proved %5.1f ns  plain %5.1f ns  ratio %.2f   (%s)\n",
                    kind, mode, proved / count, plain / count, proved / plain, left
            }'
    done
done
