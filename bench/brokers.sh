#!/bin/sh
# Fills a broker's book of 4,096 contracts, each over 16 of 1,024 meters, and releases and retires a tenth of it, by the proved
# book and by a plain one, in turns, and prints the processor time of each command, the least of so many runs, and their ratio:
# of a reserve while the book grows to 512 contracts and while it grows from 3,584 to 4,096, and of a release and a retirement.
# It takes Linux's perf.
#
#     bench/brokers.sh [PASSES] [REPEATS]
set -eu

bench=$(CDPATH='' cd -- "$(dirname -- "$0")" && pwd)
. "$bench/common.sh"
passes=${1:-20}
repeats=${2:-7}
folder=$(mktemp -d)
trap 'rm -rf "$folder"' EXIT

build brokers ds_broker ds_domain ds_domain_base moment_core
rustc -O --edition 2021 -o "$folder/plain" "$bench/plain_broker/main.rs"
given=$folder/broker.toml
"$bench/generate_broker.sh" > "$given"

# Notes the processor time of each program for these commands and contracts.
#
#     note COMMANDS CONTRACTS
note() {
    for program in proved plain; do
        path=$proved
        [ "$program" = proved ] || path=$folder/plain
        perf stat -x ' ' -o "$folder/stat" -e task-clock "$path" "$1" "$2" "$passes" < "$given" > "$folder/$program.out"
        awk '/task-clock/ { printf "%.0f\n", $1 * 1000000 }' "$folder/stat" >> "$folder/$program.$1.$2"
    done
    cmp "$folder/proved.out" "$folder/plain.out"
}

# The least time of a program, in nanoseconds.
#
#     spent PROGRAM COMMANDS CONTRACTS
spent() {
    best "$folder/$1.$2.$3"
}

# tells WHAT COUNT FROM TO: what lies between two runs, of each program
tells() {
    # shellcheck disable=SC2086 # the runs are two words each
    awk -v what="$1" -v count="$2" -v proved="$(($(spent proved $4) - $(spent proved $3)))" \
        -v plain="$(($(spent plain $4) - $(spent plain $3)))" 'BEGIN {
        printf "%-36s proved %7.0f ns  plain %7.0f ns  ratio %.2f\n", what, proved / count, plain / count, proved / plain
    }'
}

turn=0
while [ "$turn" -lt "$repeats" ]; do
    for contracts in 0 512 3584 4096; do
        note reserve "$contracts"
    done
    note release 4096
    note all 4096
    turn=$((turn + 1))
done
tells "reserve, up to 512 contracts" $((512 * passes)) "reserve 0" "reserve 512"
tells "reserve, from 3,584 to 4,096" $((512 * passes)) "reserve 3584" "reserve 4096"
tells "reserve, up to 4,096 contracts" $((4096 * passes)) "reserve 0" "reserve 4096"
tells "release, a tenth of 4,096" $((410 * passes)) "reserve 4096" "release 4096"
tells "retire, a tenth of 4,096" $((410 * passes)) "release 4096" "all 4096"
