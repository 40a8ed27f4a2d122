#!/bin/sh
# Writes a domain of 100 contracts over 10 meters, or so many steps of their packets: each packet is sent and visits its meter.
#
#     bench/generate_steps.sh domain > domain.toml
#     bench/generate_steps.sh steps COUNT > steps
set -eu
case ${1:?domain or steps} in
domain)
    exec awk '
        BEGIN {
            for (i = 0; i < 10; i++)
                printf "[[meter]]\nname = \"meter-%d\"\nkind = \"trtcm\"\ncir = 10000000000\ncbs = 4000000\npir = 10000000000\npbs = 4000000\nskew = 1000\n\n", i
            printf "[[port]]\nname = \"port\"\nskew = 0\n\n"
            for (i = 0; i < 10; i++)
                printf "[[link]]\nfrom = \"port\"\nto = \"meter-%d\"\nfloor = 1000\njitter = 1000\n\n", i
            for (i = 0; i < 100; i++)
                printf "[[contract]]\nname = \"contract-%d\"\nkind = \"trusted\"\nport = \"port\"\npath = [\"meter-%d\"]\nclass = %d\ncir = 200000000\ncbs = 3000\nsrc = \"10.0.%d.0/24\"\n\n", i, i % 10, 1 + i % 4, i
        }'
    ;;
steps)
    exec awk -v count="${2:?the number of steps}" '
        function next_state() {
            state = (state * 69069 + 1) % 4294967296
            return int(state / 65536)
        }
        BEGIN {
            state = 20240607
            for (packet = 0; packet < count / 2; packet++) {
                moment = packet * 1000
                contract = packet % 100
                size = 64 + next_state() % 1437
                point = 8 * (1 + contract % 4) + 2
                printf "send contract-%d %d %d %d %d\n", contract, packet, size, point, moment
                printf "visit %d %d\n", packet, moment + 1000 + next_state() % 1000
            }
        }'
    ;;
esac
