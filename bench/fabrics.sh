#!/bin/sh
# Takes packets through meters that 1, 2 and 4 threads share, 1,000,000 visits by each thread, over 64 meters and all over one, by
# the proved fabric and by plain mutexes, in turns, and prints the time of a visit, with its share of the packet's beginning, and
# their ratio; what a packet's beginning takes alone; and then what a visit takes where 64 packets visit each meter together.
#
#     bench/fabrics.sh [REPEATS]
set -eu

bench=$(CDPATH='' cd -- "$(dirname -- "$0")" && pwd)
. "$bench/common.sh"
repeats=${1:-7}
folder=$(mktemp -d)
trap 'rm -rf "$folder"' EXIT

build fabrics af_marker ds_certificate ds_checker ds_domain meter_book meter_fabric meter_fabric_base moment_core
rustc -O --edition 2021 -o "$folder/plain" "$bench/plain_fabric/main.rs"
given=$folder/fabric.toml

for shape in spread one; do
    "$bench/generate_fabric.sh" "$shape" > "$given"
    travellers=1000000
    [ "$shape" = one ] || travellers=62500
    for threads in 1 2 4; do
        beside "$repeats" "$shape" "$threads" "$travellers"
        awk -v shape="$shape" -v threads="$threads" -v proved="$proved_time" -v plain="$plain_time" 'BEGIN {
            printf "%-7s %d threads: proved %6.1f ns a visit  plain %6.1f ns  ratio %.2f\n",
                shape, threads, proved / 1e6 / threads, plain / 1e6 / threads, proved / plain
        }'
    done
    # packets that begin and visit nothing
    beside "$repeats" "$shape" 0 "$travellers"
    awk -v shape="$shape" -v count="$travellers" -v proved="$proved_time" -v plain="$plain_time" 'BEGIN {
        printf "%-7s a packet begins: proved %6.1f ns  plain %6.1f ns\n", shape, proved / count, plain / count
    }'
done

"$bench/generate_fabric.sh" spread > "$given"
rm -f "$folder"/*.times
turn=0
while [ "$turn" -lt "$repeats" ]; do
    for shape in spread all; do
        timed "$given" "$folder/none" "$proved" "$shape" 1 0 >> "$folder/$shape.none.times"
        timed "$given" "$folder/out" "$proved" "$shape" 1 62464 >> "$folder/$shape.times"
    done
    turn=$((turn + 1))
done
awk -v apart="$(($(best "$folder/spread.times") - $(best "$folder/spread.none.times")))" \
    -v together="$(($(best "$folder/all.times") - $(best "$folder/all.none.times")))" 'BEGIN {
        printf "one by one %.1f ns a visit, 64 at once %.1f ns\n", apart / 999424, together / 999424
    }'
