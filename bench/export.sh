#!/bin/bash
# Tries the words of `dsedge export` on the devices' own programs, for meters of many rates and bursts.
#
# The lines for `tc` are read by `tc -batch` in a network namespace of their own: where the kernel has the action,
# each policer is made, and where it has not, the kernel alone may refuse, and no line may be one that `tc` cannot
# read. The lines for DPDK are compiled, where gcc and libdpdk-dev are, with the meters of librte_meter.a, which says
# what it makes of them on a clock of 10^9 cycles a second; it has to be what `export` tells.
#
#     bench/export.sh [METERS] [FOLDER OF DPDK'S FILES]
set -euo pipefail

bench=$(CDPATH='' cd -- "$(dirname -- "$0")" && pwd)
proved=${PROGRAM:-$bench/../crates/dsedge/out/dsedge}
meters=${1:-200}
dpdk=${2:-/usr}

if [ ! -x "$proved" ]; then
    echo "export.sh: $proved is not built: ./dsedge builds it" >&2
    exit 2
fi
folder=$(mktemp -d)
trap 'rm -rf "$folder"' EXIT
wrong=0

# a domain text of one meter: its kind, its two rates and its two bursts
domain() {
    local second=pir third=pbs
    case $1 in
        rfc4115) second=eir third=ebs ;;
    esac
    printf '[[meter]]\nname = "m"\nkind = "%s"\ncir = %s\ncbs = %s\n%s = %s\n%s = %s\nskew = 0\n' \
        "$1" "$2" "$3" "$second" "$4" "$third" "$5"
}

# a number from 1 to 10 to the power, of many sizes
any() {
    awk -v seed="$1" -v most="$2" 'BEGIN { srand(seed); printf "%.0f", 1 + exp(rand() * most * log(10)) }'
}

# --- Meters, and what export tells of them

turn=0
while [ "$turn" -lt "$meters" ]; do
    cir=$(any "$turn.1" 12.5) more=$(any "$turn.2" 12) cbs=$(any "$turn.3" 9) second=$(any "$turn.4" 9)
    # every fourth rate is a round one
    [ $((turn % 4)) -ne 0 ] || cir=$(((turn + 1) * 80000000)) more=0
    for kind in trtcm rfc4115; do
        domain "$kind" "$cir" "$cbs" $((cir + more)) "$second" > "$folder/domain.toml"
        for device in tc dpdk; do
            "$proved" export "$folder/domain.toml" --meter m --to "$device" > "$folder/told" || [ $? -eq 1 ]
            grep '^actions' "$folder/told" >> "$folder/$device.lines" || true
            grep '^struct' "$folder/told" > "$folder/struct" || continue
            printf '%s\n' "$kind" >> "$folder/kinds"
            sed 's/.*{//; s/ };//; s/,//g; s/ \.[a-z]* = / /g' "$folder/struct" | tr -d '\n' >> "$folder/numbers"
            awk '$1 == "rate" || $1 == "burst" { printf " %s", $4 }' "$folder/told" >> "$folder/numbers"
            echo >> "$folder/numbers"
            cat "$folder/struct" >> "$folder/dpdk.lines"
        done
    done
    turn=$((turn + 1))
done

# --- tc

indexed() { awk '{ $NF = NR; print }' "$folder/tc.lines"; }
indexed > "$folder/batch"
apart=-rn
[ "$(id -u)" -ne 0 ] || apart=-n
if unshare "$apart" tc -force -batch "$folder/batch" > "$folder/answer" 2>&1; then
    echo "tc: $(wc -l < "$folder/batch") policers are made"
elif grep -vE '^(Command failed|RTNETLINK answers: (No such file or directory|Operation not (supported|permitted))|Error: (Failed to load TC action module|TC action not found|Specified TC action.*)\.?|We have an error talking to the kernel)' \
    "$folder/answer" > "$folder/unread"; then
    echo "tc: a line is not read, or refused:" >&2
    head -n 5 "$folder/unread" >&2
    wrong=1
else
    echo "tc: $(wc -l < "$folder/batch") lines are read; this kernel has no policers"
fi

# --- rte_meter

library=$(find "$dpdk/lib" -name librte_meter.a 2> /dev/null | head -n 1)
header=$(find "$dpdk/include" -name rte_meter.h 2> /dev/null | head -n 1)
if [ -z "$library" ] || [ -z "$header" ] || ! command -v gcc > /dev/null; then
    echo "rte_meter: not tried, since gcc, or libdpdk-dev under $dpdk, is not there"
    exit "$wrong"
fi
{
    echo '#include <inttypes.h>'
    echo '#include <rte_meter.h>'
    echo '#include <stdio.h>'
    echo 'uint64_t eal_tsc_resolution_hz = 1000000000;'
    echo 'uint64_t rte_get_tsc_hz(void) { return 1000000000; }'
    echo 'int rte_cycles_vmware_tsc_map = 0;'
    echo 'static void told(uint64_t b, uint64_t t) { printf(" %" PRIu64, (uint64_t)((unsigned __int128)8000000000 * b / t)); }'
    echo 'static void left(uint64_t burst, uint64_t b) { printf(" %" PRIu64, burst - (b - 1)); }'
    echo 'static int two(struct rte_meter_trtcm_params params) { struct rte_meter_trtcm_profile p;'
    echo 'if (rte_meter_trtcm_profile_config(&p, &params)) return 1;'
    echo 'printf(" %lu %lu %lu %lu", params.cir, params.pir, params.cbs, params.pbs);'
    echo 'told(p.cir_bytes_per_period, p.cir_period); told(p.pir_bytes_per_period, p.pir_period);'
    echo 'left(params.cbs, p.cir_bytes_per_period); left(params.pbs, p.pir_bytes_per_period); puts(""); return 0; }'
    echo 'static int separate(struct rte_meter_trtcm_rfc4115_params params) { struct rte_meter_trtcm_rfc4115_profile p;'
    echo 'if (rte_meter_trtcm_rfc4115_profile_config(&p, &params)) return 1;'
    echo 'printf(" %lu %lu %lu %lu", params.cir, params.eir, params.cbs, params.ebs);'
    echo 'told(p.cir_bytes_per_period, p.cir_period); told(p.eir_bytes_per_period, p.eir_period);'
    echo 'left(params.cbs, p.cir_bytes_per_period); left(params.ebs, p.eir_bytes_per_period); puts(""); return 0; }'
    echo 'int main(void) { int wrong = 0;'
    paste -d ' ' "$folder/kinds" "$folder/dpdk.lines" | sed -e 's/^trtcm \(.*\)$/{ \1 wrong |= two(params); }/' \
        -e 's/^rfc4115 \(.*\)$/{ \1 wrong |= separate(params); }/'
    echo 'return wrong; }'
} > "$folder/meters.c"
gcc -I "$(dirname "$header")" -I "$(dirname "$header")/../x86_64-linux-gnu/dpdk" "$folder/meters.c" "$library" -lm \
    -o "$folder/meters"
"$folder/meters" > "$folder/made" || { echo "rte_meter: a meter is refused" >&2; wrong=1; }
if cmp -s "$folder/made" "$folder/numbers"; then
    echo "rte_meter: $(wc -l < "$folder/made") meters are made as told"
else
    echo "rte_meter: made otherwise than told:" >&2
    diff "$folder/made" "$folder/numbers" | head -n 6 >&2 || true
    wrong=1
fi
exit "$wrong"
