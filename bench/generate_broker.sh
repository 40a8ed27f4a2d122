#!/bin/sh
# Writes a domain text of 1,024 meters, 64 ways of 16 of them and so many contracts (4,096), for bench/brokers.sh.
#
#     bench/generate_broker.sh [CONTRACTS]
set -eu
awk -v contracts="${1:-4096}" 'BEGIN {
    meters = 1024
    hops = 16
    for (meter = 0; meter < meters; meter++)
        printf "[[meter]]\nname = \"m%d\"\nkind = \"trtcm\"\ncir = 2000000000\ncbs = 1000000000\npir = 4000000000\npbs = 2000000000\nskew = 1000\n\n", meter
    print "[[port]]\nname = \"p\"\nskew = 0\n"
    for (meter = 0; meter < meters; meter++)
        printf "[[link]]\nfrom = \"%s\"\nto = \"m%d\"\nfloor = 10000\njitter = 1000\n\n", meter % hops ? "m" (meter - 1) : "p", meter
    for (contract = 0; contract < contracts; contract++) {
        first = contract % (meters / hops) * hops
        path = ""
        for (meter = first; meter < first + hops; meter++) path = path (meter > first ? ", " : "") "\"m" meter "\""
        printf "[[contract]]\nname = \"c%d\"\nkind = \"trusted\"\nport = \"p\"\npath = [%s]\nclass = %d\n", contract, path, contract % 4 + 1
        printf "cir = %d\ncbs = %d\nsrc = \"10.%d.%d.0/24\"\n\n", 1000000 + contract % 7, 1500 + contract % 100, contract / 256, contract % 256
    }
}'
