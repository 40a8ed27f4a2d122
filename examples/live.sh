#!/bin/bash
# Marks live traffic as it comes: in a network namespace of its own, packets of UDP go over the loopback device, tcpdump captures
# them on any device, `dsedge mark` marks them, and another tcpdump shows them with their code points. It needs root, ip (of
# iproute2) and tcpdump, and the program in the path or in DSEDGE.
#
#     examples/live.sh
set -eu

examples=$(CDPATH='' cd -- "$(dirname -- "$0")" && pwd)
export DSEDGE=${DSEDGE:-dsedge}

if [ "${1:-}" != inside ]; then
    exec unshare --net "$0" inside
fi

folder=$(mktemp -d)
trap 'rm -rf "$folder"' EXIT
ip link set lo up
"$DSEDGE" certify "$examples/live.toml" > "$folder/certificate"

# the capture ends by itself behind ten packets: those that are sent here, and those that say that nobody takes them
tcpdump -i any -c 10 -U -w - 2> /dev/null |
    "$DSEDGE" mark "$examples/live.toml" "$folder/certificate" --port here --red keep 2> "$folder/report" |
    tcpdump -n -v -r - 2> /dev/null &
sleep 2
for text in one two three; do
    echo "$text" > /dev/udp/127.0.0.1/5004
    echo "$text" > /dev/udp/::1/5004
    sleep 1
done
for text in four five six seven; do
    echo "$text" > /dev/udp/127.0.0.1/5004
done
wait
cat "$folder/report"
