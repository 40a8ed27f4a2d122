#!/bin/sh
# Does what `dsedge certify` and `dsedge check` do for 4,096 contracts over paths of 16 meters, and reads their texts alone, by
# two modes of one program, in turns, and prints the best times and their ratio.
#
#     bench/certificates.sh [PASSES] [REPEATS]
set -eu

bench=$(CDPATH='' cd -- "$(dirname -- "$0")" && pwd)
. "$bench/common.sh"
passes=${1:-3}
repeats=${2:-5}
folder=$(mktemp -d)
trap 'rm -rf "$folder"' EXIT

build certificates ds_domain ds_certificate ds_checker
"$bench/generate_domain.sh" > "$folder/domain.toml"

turn=0
while [ "$turn" -lt "$repeats" ]; do
    timed "$folder/domain.toml" /dev/null "$proved" texts 0 >> "$folder/none.times"
    timed "$folder/domain.toml" /dev/null "$proved" texts "$passes" >> "$folder/texts.times"
    timed "$folder/domain.toml" /dev/null "$proved" commands "$passes" >> "$folder/commands.times"
    turn=$((turn + 1))
done
awk -v passes="$passes" -v none="$(best "$folder/none.times")" -v texts="$(best "$folder/texts.times")" \
    -v commands="$(best "$folder/commands.times")" 'BEGIN {
        texts = (texts - none) / passes / 1e6
        commands = (commands - none) / passes / 1e6
        printf "texts read %.1f ms, certify and check %.1f ms, ratio %.2f\n", texts, commands, commands / texts
    }'
