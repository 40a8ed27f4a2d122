#!/bin/sh
# Draws the domains of examples/ and one at all its limits by the proved program, and lets Graphviz read what it drew: of
# each example `dot` lays out as many nodes as there are ports, meters and contracts, and of the large one `gc` counts the
# nodes and edges; `dot` would take hours for it.
#
#     bench/draw.sh [PROGRAM]      the program: crates/dsedge/out/dsedge where it is not said
set -eu

root=$(CDPATH='' cd -- "$(dirname -- "$0")/.." && pwd)
program=${1:-$root/crates/dsedge/out/dsedge}
room=$(mktemp -d)
trap 'rm -rf "$room"' EXIT
wrong=0

say() {
    echo "draw.sh: $1" >&2
    wrong=1
}

# What is wanted of a picture: as many nodes as a text has entries of these kinds.
entries() {
    grep -cE '^\[\[(port|meter|contract)\]\]' "$1"
}

for domain in "$root"/examples/*.toml; do
    "$program" draw "$domain" > "$room/drawn.dot"
    dot -Tplain "$room/drawn.dot" > "$room/plain" 2> "$room/told" || say "dot refuses $domain"
    [ -s "$room/told" ] && say "dot warns of $domain: $(head -n 1 "$room/told")"
    found=$(grep -c '^node' "$room/plain" || true)
    [ "$found" = "$(entries "$domain")" ] || say "$domain has $(entries "$domain") nodes, and dot lays out $found"
done

# 1,024 meters and ports, 65,536 links, and 4,096 contracts over 16 hops each.
awk 'BEGIN {
    for (m = 0; m < 1024; m++) {
        printf "[[meter]]\nname = \"m-%d\"\nkind = \"trtcm\"\ncir = 10000000000\ncbs = 4000000000\n", m
        printf "pir = 10000000000\npbs = 4000000000\nskew = 0\n"
        printf "[[port]]\nname = \"%d-p\"\nskew = 0\n", m
    }
    for (m = 0; m < 1024; m++) {
        printf "[[link]]\nfrom = \"%d-p\"\nto = \"m-%d\"\nfloor = 0\njitter = 1000\n", m, m
        for (n = 1; n < 64; n++) {
            printf "[[link]]\nfrom = \"m-%d\"\nto = \"m-%d\"\nfloor = 0\njitter = 1000\n", m, (m + n) % 1024
        }
    }
    for (c = 0; c < 4096; c++) {
        printf "[[contract]]\nname = \"c-%d\"\nkind = \"trusted\"\nport = \"%d-p\"\npath = [", c, c % 1024
        for (n = 0; n < 16; n++) printf "%s\"m-%d\"", n ? ", " : "", (c + n) % 1024
        printf "]\nclass = 1\ncir = 8000\ncbs = 1500\nsrc = \"10.%d.%d.0/24\"\n", c / 256, c % 256
    }
}' > "$room/large.toml"
"$program" draw "$room/large.toml" > "$room/large.dot"
counted=$(gc -n -e "$room/large.dot" | awk '{ print $1, $2 }')
wanted="$((1024 + 1024 + 4096)) $((65536 + 4096 * 17))"
[ "$counted" = "$wanted" ] || say "the domain at its limits has $wanted nodes and edges, and gc counts $counted"
[ "$wrong" -eq 0 ] && echo "Graphviz reads each example, and a domain at its limits: $wanted nodes and edges, $(wc -c < "$room/large.dot") bytes"
exit "$wrong"
