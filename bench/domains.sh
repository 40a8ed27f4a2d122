#!/bin/sh
# Reads a domain text at all its limits as a TOML document alone and as a domain, by two modes of one program, in turns, and
# prints the best times and their ratio.
#
#     bench/domains.sh [PASSES] [REPEATS]
set -eu

bench=$(CDPATH='' cd -- "$(dirname -- "$0")" && pwd)
. "$bench/common.sh"
passes=${1:-3}
repeats=${2:-5}
folder=$(mktemp -d)
trap 'rm -rf "$folder"' EXIT

build domains ds_domain toml
"$bench/generate_domain.sh" > "$folder/domain.toml"

turn=0
while [ "$turn" -lt "$repeats" ]; do
    timed "$folder/domain.toml" /dev/null "$proved" toml 0 >> "$folder/none.times"
    timed "$folder/domain.toml" /dev/null "$proved" toml "$passes" >> "$folder/toml.times"
    timed "$folder/domain.toml" /dev/null "$proved" domain "$passes" >> "$folder/domain.times"
    turn=$((turn + 1))
done
awk -v bytes="$(wc -c < "$folder/domain.toml")" -v passes="$passes" -v none="$(best "$folder/none.times")" \
    -v toml="$(best "$folder/toml.times")" -v domain="$(best "$folder/domain.times")" 'BEGIN {
        toml = (toml - none) / passes / 1e6
        domain = (domain - none) / passes / 1e6
        printf "%d bytes: as TOML %.1f ms, as a domain %.1f ms, ratio %.2f\n", bytes, toml, domain, domain / toml
    }'
