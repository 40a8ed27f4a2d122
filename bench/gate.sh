#!/bin/sh
# Runs the whole gate from nothing, `rt ci` in a fresh clone of what is committed (`rt ci --anew` where the kit keeps what
# earlier runs proved), and prints what it took: wall and processor minutes, these also by kind and by crate.
#
#     bench/gate.sh [FOLDER]        the clone stands in a new folder below FOLDER, /tmp where none is given
#
# Nothing that an earlier run kept counts. Other work on the machine makes the figures larger. The processor time of all
# is what the system counts; that by kind is looked at once a second, so of each process up to the last second is missing.
set -eu

root=$(CDPATH='' cd -- "$(dirname -- "$0")/.." && pwd)
room=$(mktemp -d "${1:-/tmp}/gate.XXXXXX")
trap 'rm -rf "$room"' EXIT
trap 'exit 130' INT TERM
git clone -q "$root" "$room/clone"
: > "$room/samples"

# A line for a process of the prover: itself, what it is at work on, and its processor time so far in hundredths of a second.
sample() {
    read -r stat < "/proc/$1/stat" || return 0
    words=$(tr '\0' ' ' < "/proc/$1/cmdline") || return 0
    folder=$(readlink "/proc/$1/cwd") || return 0
    case $folder in
        "$room"/* | */rt-edit-*) ;;
        *) return 0 ;;
    esac
    case $words in
        *" --crate-name "*) crate=${words#* --crate-name } ;;
        *) return 0 ;;
    esac
    case $folder,$words in
        */rt-edit-*) kind='wrong bodies' ;;
        *" --test "*) kind='tests' ;;
        *) kind='libraries' ;;
    esac
    # behind the name in brackets: the state, the parent, .., and as 12th to 15th the time of itself and of its children
    echo "${stat##*) }" | awk -v process="$1" -v kind="$kind" -v crate="${crate%% *}" '
        { print process "-" $20 "\t" $2 "\t" kind "\t" crate "\t" $12 + $13 + $14 + $15 }
    '
}

anew=$(rt help 2>&1 | grep -q -e '--anew proves' && echo --anew || true)
begin=$(date +%s)
# shellcheck disable=SC2086 # no word where the kit has none
(cd "$room/clone" && rt ci $anew) > "$room/log" 2>&1 &
gate=$!
while kill -0 "$gate" 2> /dev/null; do
    for process in $(pgrep -x rattle); do
        sample "$process" >> "$room/samples" 2> /dev/null || true
    done
    sleep 1
done
status=0
wait "$gate" || status=$?
end=$(date +%s)

tail -n 3 "$room/log"
echo "$(nproc) cores, $(((end - begin + 30) / 60)) minutes of wall time, rt ci ended with status $status"
# the system's count of the time of all that this script has waited for
times > "$room/times"
awk -F '[ms ]+' 'NR == 2 { printf "%.0f processor minutes in all\n", $1 + $3 + ($2 + $4) / 60 }' "$room/times"
awk -F '\t' -v ticks="$(getconf CLK_TCK)" '
    { split($1, process, "-"); parent[$1] = $2; isprover[process[1]] = 1; kind[$1] = $3; crate[$1] = $4; taken[$1] = $5 }
    END {
        # a copy that a prover makes of itself counts with it
        for (one in taken) if (!(parent[one] in isprover)) {
            kinds[kind[one]] += taken[one]
            crates[crate[one] ", " kind[one]] += taken[one]
        }
        for (one in kinds) printf "%6.1f  %s\n", kinds[one] / ticks / 60, one
        for (one in crates) printf "%6.1f  %s\n", crates[one] / ticks / 60, one | "sort -rn | head -n 10"
    }
' "$room/samples"
exit "$status"
