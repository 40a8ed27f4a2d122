#!/bin/sh
# Times `dsedge audit` on steps of 100 contracts: as many as are asked for, then half of them and a quarter, and prints the best
# times.
#
#     bench/audit.sh [STEPS] [REPEATS]
set -eu

bench=$(CDPATH='' cd -- "$(dirname -- "$0")" && pwd)
. "$bench/common.sh"
proved=$bench/../crates/dsedge/out/dsedge
count=${1:-1000000}
repeats=${2:-5}

if [ ! -x "$proved" ]; then
    echo "audit.sh: $proved is not built: ./dsedge builds it" >&2
    exit 2
fi
folder=$(mktemp -d)
trap 'rm -rf "$folder"' EXIT

"$bench/generate_steps.sh" domain > "$folder/domain.toml"
"$proved" certify "$folder/domain.toml" > "$folder/certificate"
for steps in $((count / 4)) $((count / 2)) "$count"; do
    "$bench/generate_steps.sh" steps "$steps" > "$folder/steps"
    rm -f "$folder/times"
    turn=0
    while [ "$turn" -lt "$repeats" ]; do
        timed "$folder/steps" "$folder/answer" "$proved" audit "$folder/domain.toml" "$folder/certificate" >> "$folder/times"
        turn=$((turn + 1))
    done
    awk -v best="$(best "$folder/times")" -v steps="$steps" -v verdict="$(head -n 1 "$folder/answer")" 'BEGIN {
        printf "%8d steps  %7.1f ms  %6.1f ns a step  %s\n", steps, best / 1e6, best / steps, verdict
    }'
done
