#!/bin/sh
# Looks through 1, 2 and 4 feeds, a thread each, while one caller sells, by the proved desk and by plain Rust with a table behind
# `RwLock<Arc<..>>` that is replaced as often, in turns, and prints the looks in a second and their ratio.
#
#     bench/feeds.sh [LOOKS] [REPEATS]
set -eu

bench=$(CDPATH='' cd -- "$(dirname -- "$0")" && pwd)
. "$bench/common.sh"
looks=${1:-2000000}
repeats=${2:-7}
folder=$(mktemp -d)
trap 'rm -rf "$folder"' EXIT

build feeds ds_broker ds_desk ds_domain ds_domain_base moment_core
rustc -O --edition 2021 -o "$folder/plain" "$bench/plain_feeds/main.rs"
given=$bench/../examples/three_trusted.toml

# The run of the least time, of those in a file of lines LOOKS COMMANDS NANOSECONDS.
least() {
    sort -n -k 3 "$1" | head -n 1
}

for threads in 1 2 4; do
    rm -f "$folder"/*.lines
    turn=0
    while [ "$turn" -lt "$repeats" ]; do
        "$proved" "$threads" "$looks" < "$given" > "$folder/line"
        cat "$folder/line" >> "$folder/proved.lines"
        pace=$(awk '{ printf "%d", $3 / ($2 > 0 ? $2 : 1) }' "$folder/line")
        "$folder/plain" "$threads" "$looks" "$pace" >> "$folder/plain.lines"
        turn=$((turn + 1))
    done
    echo "$threads $(least "$folder/proved.lines") $(least "$folder/plain.lines")" | awk '{
        proved = $2 / $4 * 1000
        plain = $5 / $7 * 1000
        printf "%d feeds: proved %.1f million looks a second beside %.0f commands a second  plain %.1f  ratio %.2f\n",
            $1, proved, $3 / $4 * 1e9, plain, proved / plain
    }'
done
