#!/bin/bash
# Looks for runs of `dsedge mark` by several workers that hang, or that do what one worker does not: in rounds, a capture of some
# 700 KB, whole and cut, by 2, 3 and 8 workers, beside one, into a file, into one that takes no byte, and into a pipe that is closed
# early. It does so alone, and beside as many busy loops as there are processors. A run has 20 seconds. It prints a line for each
# kind, and ends with status 1 where a run took longer or differed.
#
#     bench/faults.sh [ROUNDS]
set -u

bench=$(CDPATH='' cd -- "$(dirname -- "$0")" && pwd)
proved=$bench/../crates/dsedge/out/dsedge
rounds=${1:-100}
limit=20

if [ ! -x "$proved" ]; then
    echo "faults.sh: $proved is not built: ./dsedge builds it" >&2
    exit 2
fi
folder=$(mktemp -d)
busy=()

# Ends the busy loops.
rest() {
    [ "${#busy[@]}" -eq 0 ] || kill "${busy[@]}" 2> /dev/null
    [ "${#busy[@]}" -eq 0 ] || wait "${busy[@]}" 2> /dev/null
    busy=()
}
trap 'rest; rm -rf "$folder"' EXIT
trap 'exit 1' INT TERM

# Marks INPUT by so many workers; what is written goes to the output of this call, what is told into NAME.report, and the status
# into NAME.status.
#
#     mark WORKERS INPUT NAME
mark() {
    timeout -k 5 "$limit" "$proved" mark "$folder/domain.toml" "$folder/certificate" --port port --red keep --workers "$1" \
        < "$2" 2> "$folder/$3.report"
    echo "$?" > "$folder/$3.status"
}

# Notes that a run of a kind took too long, or differed.
#
#     notes KIND TEXT
notes() {
    echo "$1, round $round: $2" >&2
    wrong[$1]=$((${wrong[$1]:-0} + 1))
    failed=1
}

# Whether a run ended in time.
in_time() {
    read -r status < "$folder/$2.status"
    # what timeout answers where the time is over, and where it had to kill
    if [ "$status" -eq 124 ] || [ "$status" -eq 137 ]; then
        notes "$1" "$3 workers did not end in $limit s"
        return 1
    fi
}

# Whether two runs ended alike.
alike() {
    if ! cmp -s "$folder/$2.$4" "$folder/$3.$4"; then
        cp "$folder/$2.$4" "$folder/$3.$4" "${TMPDIR:-/tmp}"
        notes "$1" "$5 workers: another $4 than one worker's; both are in ${TMPDIR:-/tmp}"
    fi
}

# Marks an input by several workers into a file, beside what one worker wrote, told and ended with.
#
#     compares KIND INPUT
compares() {
    mark 1 "$2" one > "$folder/one.out"
    in_time "$1" one 1
    for workers in 2 3 8; do
        counts[$1]=$((${counts[$1]:-0} + 1))
        mark "$workers" "$2" several > "$folder/several.out"
        in_time "$1" several "$workers" || continue
        for part in out report status; do
            alike "$1" several one "$part" "$workers"
        done
    done
}

# Marks the capture into a file that takes no byte: the status is one worker's.
fills() {
    mark 1 "$folder/in.pcap" one > /dev/full
    in_time full one 1
    for workers in 2 3 8; do
        counts[full]=$((${counts[full]:-0} + 1))
        mark "$workers" "$folder/in.pcap" several > /dev/full
        in_time full several "$workers" || continue
        alike full several one status "$workers"
    done
}

# Marks the capture into a pipe that is closed behind 1,000 bytes, which are those of one worker.
closes() {
    head -c 1000 "$folder/whole.out" > "$folder/one.out"
    for workers in 1 2 3 8; do
        counts[closed]=$((${counts[closed]:-0} + 1))
        mark "$workers" "$folder/in.pcap" several | head -c 1000 > "$folder/several.out"
        in_time closed several "$workers" || continue
        alike closed several one out "$workers"
        if [ "$status" -eq 0 ]; then
            notes closed "$workers workers: status 0, though the pipe was closed"
        fi
    done
}

# Marks the capture out of a pipe that gives it in two parts, the first of which ends inside a record.
halts() {
    cp "$folder/whole.out" "$folder/one.out"
    for workers in 2 3 8; do
        counts[halting]=$((${counts[halting]:-0} + 1))
        { head -c 470000; sleep 0.05; cat; } < "$folder/in.pcap" | mark "$workers" /dev/stdin several > "$folder/several.out"
        in_time halting several "$workers" || continue
        alike halting several one out "$workers"
    done
}

# Makes all rounds, and tells what came of each kind.
#
#     makes WHEN
makes() {
    counts=()
    wrong=()
    round=0
    while [ "$round" -lt "$rounds" ]; do
        compares whole "$folder/in.pcap"
        # within the heading, and elsewhere in each round
        for size in 20 $((262168 + round)) $((400000 + 7919 * round % 250000)) $((bytes - 1 - round % 200)); do
            head -c "$size" "$folder/in.pcap" > "$folder/cut.pcap"
            compares cut "$folder/cut.pcap"
        done
        fills
        closes
        halts
        round=$((round + 1))
    done
    for kind in whole cut full closed halting; do
        echo "$1, $kind: ${counts[$kind]:-0} runs, ${wrong[$kind]:-0} wrong"
    done
}

rustc -O --edition 2021 -o "$folder/generate" "$bench/generate_capture/main.rs" || exit 2
"$folder/generate" domain mixed > "$folder/domain.toml"
"$proved" certify "$folder/domain.toml" > "$folder/certificate" || exit 2
# a record has some 116 bytes
"$folder/generate" capture mixed 6000 > "$folder/in.pcap"
bytes=$(wc -c < "$folder/in.pcap")
mark 1 "$folder/in.pcap" whole > "$folder/whole.out"
echo "$rounds rounds of a capture of $bytes bytes"

declare -A counts wrong
failed=0
makes alone
processors=$(nproc)
while [ "${#busy[@]}" -lt "$processors" ]; do
    while :; do :; done &
    busy+=("$!")
done
makes "beside load"
rest
exit "$failed"
