#!/bin/sh
# Sells contracts of a domain of 1,024 meters through a desk with one feed: 4,096 contracts, each over 16 meters, are reserved, and
# then one after the other released, retired and reserved again, 65,536 commands in all, all of which are accepted. It prints the
# processor time of all, the least of so many runs, and of one command; then what a reserve takes while the table grows to 512
# contracts, and while it grows from 3,584 to 4,096. It takes Linux's perf.
#
#     bench/desks.sh [COMMANDS] [REPEATS]
set -eu

bench=$(CDPATH='' cd -- "$(dirname -- "$0")" && pwd)
. "$bench/common.sh"
commands=${1:-65536}
repeats=${2:-3}
folder=$(mktemp -d)
trap 'rm -rf "$folder"' EXIT

build desks ds_broker ds_desk ds_domain ds_domain_base moment_core
given=$folder/broker.toml
"$bench/generate_broker.sh" > "$given"

# The least processor time of so many commands, in nanoseconds.
#
#     spent COMMANDS
spent() {
    rm -f "$folder/times"
    turn=0
    while [ "$turn" -lt "$repeats" ]; do
        perf stat -x ' ' -o "$folder/stat" -e task-clock "$proved" "$1" < "$given" > "$folder/taken"
        if [ "$(cat "$folder/taken")" -ne "$1" ]; then
            echo "desks.sh: only $(cat "$folder/taken") of $1 commands were accepted" >&2
            exit 1
        fi
        awk '/task-clock/ { printf "%.0f\n", $1 * 1000000 }' "$folder/stat" >> "$folder/times"
        turn=$((turn + 1))
    done
    best "$folder/times"
}

# tells WHAT COUNT NANOSECONDS
tells() {
    awk -v what="$1" -v count="$2" -v time="$3" 'BEGIN {
        printf "%-40s %9.3f s  %9.1f us a command\n", what, time / 1e9, time / count / 1e3
    }'
}

none=$(spent 0)
few=$(spent 512)
most=$(spent 3584)
full=$(spent 4096)
all=$(spent "$commands")
tells "reserve, up to 512 contracts" 512 "$((few - none))"
tells "reserve, from 3,584 contracts to 4,096" 512 "$((full - most))"
tells "$commands commands" "$commands" "$((all - none))"
