#!/bin/sh
# Prints the crates by layers, as crates.txt has them: a crate stands one layer above the highest that it uses. Tests stand
# in crates that no other uses, and are left out; a star stands behind what is on the longest chain.
#
#     docs/layers.sh
set -eu

root=$(CDPATH='' cd -- "$(dirname -- "$0")/.." && pwd)
awk -F ': *' '
    function layer(name, used, count, place, most) {
        if (name in known) return known[name]
        count = split(uses[name], used, " ")
        for (place = 1; place <= count; place++) if (used[place] in uses && layer(used[place]) > most) most = layer(used[place])
        return known[name] = most + 1
    }
    function mark(name, used, count, place) {
        longest[name] = 1
        count = split(uses[name], used, " ")
        for (place = 1; place <= count; place++) {
            if (used[place] in uses && layer(used[place]) == layer(name) - 1) mark(used[place])
        }
    }
    /^#/ || !NF { next }
    { name = $1; sub(/:.*/, "", name); if (name !~ /^worked_/) { uses[name] = $2; order[++all] = name } }
    END {
        for (one = 1; one <= all; one++) if (layer(order[one]) > top) top = layer(order[one])
        for (one = 1; one <= all; one++) if (layer(order[one]) == top) mark(order[one])
        for (at = 1; at <= top; at++) {
            line = at < 10 ? "    " at ".  " : "    " at ". "
            for (one = 1; one <= all; one++) if (layer(order[one]) == at) {
                word = order[one] (order[one] in longest ? "*" : "")
                if (length(line) + length(word) > 118) { print line; line = "        " }
                line = line word " "
            }
            sub(/ +$/, "", line)
            print line
        }
    }
' "$root/crates.txt"
