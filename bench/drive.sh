#!/bin/sh
# Sells contracts of a domain of 1,024 meters by `dsedge drive`: 4,096 contracts, each over 16 meters, are reserved, and then one
# after the other released, retired and reserved again, 65,536 commands in all, all of which are granted. It prints the best time
# of such a run, of one command in it, and the most memory that it took; then what a reserve takes while the table grows to 512
# contracts, and while it grows from 3,584 to 4,096.
#
#     bench/drive.sh [COMMANDS] [REPEATS]
set -eu

bench=$(CDPATH='' cd -- "$(dirname -- "$0")" && pwd)
. "$bench/common.sh"
proved=$bench/../crates/dsedge/out/dsedge
count=${1:-65536}
repeats=${2:-3}
contracts=4096

if [ ! -x "$proved" ]; then
    echo "drive.sh: $proved is not built: ./dsedge builds it" >&2
    exit 2
fi
folder=$(mktemp -d)
trap 'rm -rf "$folder"' EXIT
domain=$folder/domain.toml
"$bench/generate_broker.sh" "$contracts" > "$domain"

# So many commands: reserves of all contracts, and then turns of release, retire and reserve, each later than a hold is long.
commands() {
    awk -v count="$1" -v contracts="$contracts" 'BEGIN {
        hold = 1000000000000
        for (number = 0; number < count; number++) {
            turn = int((number - contracts) / 3)
            moment = turn * hold
            if (number < contracts) print "reserve c" number
            else if ((number - contracts) % 3 == 0) printf "release %d %.0f\n", turn + 1, moment
            else if ((number - contracts) % 3 == 1) printf "retire %d %.0f\n", turn + 1, moment + hold
            else print "reserve c" turn % contracts
        }
    }'
}

# The best time of so many commands, in nanoseconds.
#
#     sold COUNT
sold() {
    commands "$1" > "$folder/in"
    rm -f "$folder/times"
    turn=0
    while [ "$turn" -lt "$repeats" ]; do
        timed "$folder/in" "$folder/out" "$proved" drive "$domain" >> "$folder/times"
        turn=$((turn + 1))
    done
    if [ "$(wc -l < "$folder/out")" -ne "$1" ] || grep -q refused "$folder/out"; then
        echo "drive.sh: not all of $1 commands were accepted:" >&2
        grep refused "$folder/out" | head -n 3 >&2
        exit 1
    fi
    best "$folder/times"
}

# tells WHAT COUNT NANOSECONDS
tells() {
    awk -v what="$1" -v count="$2" -v time="$3" 'BEGIN {
        printf "%-40s %9.3f s  %9.1f us a command\n", what, time / 1e9, time / count / 1e3
    }'
}

none=$(sold 0)
all=$(sold "$count")
tells "nothing but the domain's text" 1 "$none"
tells "$count commands" "$count" "$((all - none))"
if [ -x /usr/bin/time ]; then
    /usr/bin/time -f '%M KiB at most' "$proved" drive "$domain" < "$folder/in" > /dev/null
fi
few=$(sold 512)
most=$(sold 3584)
full=$(sold 4096)
tells "reserve, up to 512 contracts" 512 "$((few - none))"
tells "reserve, from 3,584 contracts to 4,096" 512 "$((full - most))"
