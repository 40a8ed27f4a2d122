#!/bin/sh
# Tries the answers of `dsedge quote`: for each contract, and each field that it has, of the domains in examples/ and of domains
# that are made at random, the checker accepts the least certificate of the text with the value that is answered, and with one
# more either the text is refused or the checker refuses it; where `none` is answered, the line behind it is the checker's for the
# least value that the text may have. Then it times `quote` beside `check`, over 4,096 contracts with paths of 16 meters each.
#
#     bench/quotes.sh [DOMAINS] [REPEATS]
set -eu

bench=$(CDPATH='' cd -- "$(dirname -- "$0")" && pwd)
. "$bench/common.sh"
proved=$bench/../crates/dsedge/out/dsedge
domains=${1:-200}
repeats=${2:-5}

if [ ! -x "$proved" ]; then
    echo "quotes.sh: $proved is not built: ./dsedge builds it" >&2
    exit 2
fi
folder=$(mktemp -d)
trap 'rm -rf "$folder"' EXIT

python3 "$bench/quotes/try.py" "$proved" "$domains" "$bench"/../examples/*.toml

"$bench/generate_domain.sh" > "$folder/domain.toml"
"$proved" certify "$folder/domain.toml" > "$folder/certificate.txt"
turn=0
while [ "$turn" -lt "$repeats" ]; do
    timed /dev/null /dev/null "$proved" check "$folder/domain.toml" "$folder/certificate.txt" >> "$folder/check.times"
    timed /dev/null /dev/null "$proved" quote "$folder/domain.toml" --contract contract-2048 --most cbs >> "$folder/quote.times"
    timed /dev/null /dev/null "$proved" headroom "$folder/domain.toml" >> "$folder/headroom.times"
    turn=$((turn + 1))
done
awk -v check="$(best "$folder/check.times")" -v quote="$(best "$folder/quote.times")" \
    -v headroom="$(best "$folder/headroom.times")" 'BEGIN {
        printf "check %.1f ms, quote %.1f ms, ratio %.2f, headroom %.1f ms, ratio %.2f\n", check / 1e6, quote / 1e6, quote / check,
            headroom / 1e6, headroom / check
    }'
