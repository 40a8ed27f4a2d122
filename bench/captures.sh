#!/bin/sh
# Reads frames out of a capture in memory, in pieces of 64 KiB, by the proved reader and by a plain one, in turns, and
# prints the best times and their ratio. Both have to find the same frames.
#
#     bench/captures.sh [REPEATS]
set -eu

bench=$(CDPATH='' cd -- "$(dirname -- "$0")" && pwd)
. "$bench/common.sh"
repeats=${1:-9}
folder=$(mktemp -d)
trap 'rm -rf "$folder"' EXIT

build captures pcap_capture moment_core
rustc -O --edition 2021 -o "$folder/plain" "$bench/plain_captures/main.rs"

echo "best of $repeats, without the time to make the capture"
for shape in '96 100000 100' '500 20000 200' '1500 10000 200' '9000 2000 200'; do
    # shellcheck disable=SC2086
    set -- $shape
    beside "$repeats" "$1" "$2" "$3"
    awk -v size="$1" -v frames="$(($2 * $3))" -v proved="$proved_time" -v plain="$plain_time" 'BEGIN {
            proved /= frames
            plain /= frames
            printf "%5d bytes  proved %6.1f ns a frame, %4.1f GB/s  plain %6.1f ns, %4.1f GB/s  ratio %.2f\n",
                size, proved, (size + 16) / proved, plain, (size + 16) / plain, proved / plain
        }'
done
