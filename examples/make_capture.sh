#!/bin/sh
# Makes a capture of real traffic. A customer pings the network, sends it voice (UDP, marked AF11) and answers its request
# for a page (TCP). Both ends are network namespaces of this machine with a virtual link between them, which nothing
# leaves. The capture is taken at the customer's end, takes six seconds and keeps the first 96 bytes of each frame.
#
#     examples/make_capture.sh > examples/voice_and_web.pcap
#
# It needs root, and Debian's packages tcpdump, iproute2, ethtool, iputils-ping and netcat-openbsd. A new run gives other
# stamps, numbers and checksums, and may give a few frames more or fewer, so other colours too.
set -eu

customer=customer-$$
network=network-$$
folder=$(mktemp -d)

# Takes the namespaces away, and the link with them. What still runs in them ends by its own limit of time.
clean_up() {
    ip netns del "$customer" 2> /dev/null || true
    ip netns del "$network" 2> /dev/null || true
    rm -rf "$folder"
}

# Sets up a namespace's end of the link, without IPv6. Segments are cut and checksums made before a frame is captured,
# where a card would do it after.
#
#     set_up NAMESPACE ADDRESS
set_up() {
    ip -n "$1" link set link0 addrgenmode none
    ip netns exec "$1" ethtool --offload link0 tx off tso off gso off gro off > /dev/null
    ip -n "$1" address add "$2" dev link0
    ip -n "$1" link set link0 up
}

# Waits until a line of a file holds these words, for five seconds at the most.
#
#     await FILE WORDS
await() {
    turns=0
    until grep -q "$2" "$1"; do
        turns=$((turns + 1))
        if [ "$turns" -gt 100 ]; then
            cat "$1" >&2
            exit 1
        fi
        sleep 0.05
    done
}

# Writes so many zeros in one piece.
#
#     zeros COUNT
zeros() {
    dd if=/dev/zero bs="$1" count=1 status=none
}

# Writes 50 packets of voice: 172 bytes each, 20 ms or a little more apart. It begins when the sender surely waits for them.
voice() {
    sleep 0.2
    turns=0
    while [ "$turns" -lt 50 ]; do
        zeros 172
        turns=$((turns + 1))
        sleep 0.02
    done
}

# Writes a page in bursts of 1 to 6 full segments, 80 ms or a little more apart.
page() {
    printf 'HTTP/1.0 200 OK\r\nContent-Type: application/octet-stream\r\n\r\n'
    for segments in 1 2 4 3 1 5 2 4 1 6 3 2; do
        sleep 0.08
        zeros $((segments * 1448))
    done
    sleep 0.08
}

trap clean_up EXIT
trap 'exit 1' HUP INT TERM

ip netns add "$customer"
ip netns add "$network"
ip link add link0 netns "$customer" address 02:00:00:00:00:01 type veth \
    peer name link0 netns "$network" address 02:00:00:00:00:02
set_up "$customer" 10.0.0.1/24
set_up "$network" 10.0.0.2/24

timeout -s INT 6 ip netns exec "$customer" tcpdump -i link0 -s 96 -U -w - 2> "$folder/told" &
await "$folder/told" 'listening on'

timeout 5 ip netns exec "$network" nc -u -l 10.0.0.2 5004 > /dev/null &
ip netns exec "$customer" ping -q -c 3 -i 0.2 10.0.0.2 > /dev/null
page | timeout 5 ip netns exec "$customer" nc -N -l 10.0.0.1 80 > /dev/null &
voice | timeout 5 ip netns exec "$customer" nc -u -q 0 -T af11 10.0.0.2 5004 &
sleep 0.1
printf 'GET / HTTP/1.0\r\n\r\n' | timeout 5 ip netns exec "$network" nc 10.0.0.1 80 > /dev/null
wait
