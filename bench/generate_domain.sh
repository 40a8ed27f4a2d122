#!/bin/sh
# Writes a domain at all its limits: 1,024 meters, 1,024 ports, 65,536 links, and 4,096 contracts, or as many as are asked for,
# over paths of 16 meters.
#
#     bench/generate_domain.sh [CONTRACTS] > domain.toml
set -eu
exec awk -v contracts="${1:-4096}" '
    BEGIN {
        meters = 1024; ports = 1024; path = 16
        for (i = 0; i < meters; i++)
            printf "[[meter]]\nname = \"meter-%d\"\nkind = \"trtcm\"\ncir = 10000000000\ncbs = 4000000000\npir = 10000000000\npbs = 4000000000\nskew = 1000\n\n", i
        for (i = 0; i < ports; i++)
            printf "[[port]]\nname = \"port-%d\"\nskew = 1000\n\n", i
        # from each port to its meter, and from each meter to the 63 that follow
        for (i = 0; i < ports; i++)
            printf "[[link]]\nfrom = \"port-%d\"\nto = \"meter-%d\"\nfloor = 1000\njitter = 1000\n\n", i, i
        for (i = 0; i < meters; i++)
            for (j = 1; j <= 63; j++)
                printf "[[link]]\nfrom = \"meter-%d\"\nto = \"meter-%d\"\nfloor = 1000\njitter = 1000\n\n", i, (i + j) % meters
        for (i = 0; i < contracts; i++) {
            first = (i * 7) % ports
            printf "[[contract]]\nname = \"contract-%d\"\nkind = \"trusted\"\nport = \"port-%d\"\npath = [", i, first
            for (j = 0; j < path; j++)
                printf "%s\"meter-%d\"", (j ? ", " : ""), (first + j * (1 + i % 63)) % meters
            printf "]\nclass = %d\ncir = 1000000\ncbs = 3000\nsrc = \"10.%d.%d.0/24\"\n\n", 1 + i % 4, int(i / 256), i % 256
        }
    }'
