#!/bin/sh
# Writes N arrivals, the same ones each time: moments that rise by 0 to 7999 nanoseconds, sizes of 64 to 1500 bytes,
# and colours of all three kinds, most of them green.
#
#     bench/generate.sh N > arrivals
set -eu
exec awk -v count="${1:?the number of arrivals}" '
    function next_state() {
        state = (state * 69069 + 1) % 4294967296
        return int(state / 65536)
    }
    BEGIN {
        state = 20240607
        for (i = 0; i < count; i++) {
            moment += next_state() % 8000
            size = 64 + next_state() % 1437
            pick = next_state() % 10
            colour = pick < 6 ? "g" : pick < 9 ? "y" : "r"
            printf "%.0f %d %s\n", moment, size, colour
        }
    }'
