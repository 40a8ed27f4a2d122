#!/bin/sh
# Writes a domain text for bench/fabrics.sh: 64 meters and 4 trusted contracts over 16 of them each (`spread`), or one meter and
# one contract (`one`).
#
#     bench/generate_fabric.sh SHAPE
set -eu
awk -v shape="$1" 'BEGIN {
    meters = shape == "one" ? 1 : 64
    hops = shape == "one" ? 1 : 16
    for (meter = 0; meter < meters; meter++)
        printf "[[meter]]\nname = \"m%d\"\nkind = \"srtcm\"\ncir = 8000000000\ncbs = 1000000\nebs = 1000000\nskew = 1000\n\n", meter
    print "[[port]]\nname = \"p\"\nskew = 0\n"
    for (meter = 0; meter < meters; meter++)
        printf "[[link]]\nfrom = \"%s\"\nto = \"m%d\"\nfloor = 0\njitter = 1000\n\n", meter % hops ? "m" (meter - 1) : "p", meter
    for (contract = 0; contract < meters / hops; contract++) {
        path = ""
        for (meter = contract * hops; meter < (contract + 1) * hops; meter++) path = path (meter % hops ? ", " : "") "\"m" meter "\""
        printf "[[contract]]\nname = \"c%d\"\nkind = \"trusted\"\nport = \"p\"\npath = [%s]\nclass = 1\n", contract, path
        printf "cir = 1000000\ncbs = 1500\nsrc = \"10.0.%d.0/24\"\n\n", contract
    }
}'
