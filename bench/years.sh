#!/bin/sh
# Times `dsedge drive` as a broker that sold for years: beside 64 contracts and beside 65,472, each over 16 of 1,024 meters, which
# stand in a book that `sqlite3` writes in the form of the program's own. A contract is reserved, released and retired so many
# times (100,000), and then the oldest contracts go, and those in the middle. Each figure is processor time or memory of a run less
# that of a start over the same book. Then 1,000,000 commands are sold without a book, and 65,536 by a pipe with one, and the
# program starts over these. Books stand in FOLDER (a tmpfs, /dev/shm, by default).
#
#     bench/years.sh [TURNS] [FOLDER]
set -eu

bench=$(CDPATH='' cd -- "$(dirname -- "$0")" && pwd)
program=${PROGRAM:-$bench/../crates/dsedge/out/dsedge}
turns=${1:-100000}
if [ ! -x "$program" ]; then
    echo "years.sh: $program is not built: ./dsedge builds it" >&2
    exit 2
fi
folder=$(mktemp -d -p "${2:-/dev/shm}")
trap 'rm -rf "$folder"' EXIT
"$bench/generate_broker.sh" 64 > "$folder/few.toml"
"$bench/generate_broker.sh" 4096 > "$folder/many.toml"
most=65472

# `drive` with room for all, with the domain of these contracts.
drive() {
    domain=$folder/$1.toml
    shift
    /usr/bin/time -f '%U %S %e %M' -o "$folder/took" "$program" drive "$domain" --contracts 65536 --commands 16000000 "$@"
}

# A book of so many contracts, k0 and on.
book() {
    drive few --book "$folder/form.db" < /dev/null
    {
        echo 'pragma journal_mode = wal;'
        sqlite3 -readonly "$folder/form.db" "select sql || ';' from sqlite_schema where sql is not null"
        echo 'begin; insert into form values (1);'
        awk -v count="$1" 'BEGIN {
            for (number = 0; number < count; number++) {
                path = ""
                for (meter = number % 64 * 16; meter < number % 64 * 16 + 16; meter++) path = path "/m" meter
                printf "insert into command (serial, done, id, name, port, path, class, kind, cir, cbs, since, src, src_length) "
                printf "values (%d, \047reserve\047, %d, \047k%d\047, \047p\047, \047%s\047, %d, ", number + 1, number + 1, number, path, number % 4 + 1
                printf "\047trusted\047, %d, %d, 0, %d, 24);\n", 1000000 + number % 7, 1500 + number % 100, 167772160 + number * 256
            }
        }'
        echo 'commit; pragma wal_checkpoint(truncate);'
    } | sqlite3 "$folder/$1.db" > "$folder/said"
}

# So many turns over a book of so many contracts: one more comes and goes; or those from an id on go.
turn() {
    awk -v held="$1" -v turns="$2" -v from="$3" 'BEGIN {
        hold = 1000000000000
        for (turn = 0; turn < turns; turn++) {
            if (!from) print "reserve c0"
            id = from ? from + turn : held + turn + 1
            printf "release %d %.0f\nretire %d %.0f\n", id, turn * hold, id, (turn + 1) * hold
        }
    }'
}

# What a run over a book takes: processor time in seconds, and memory in KiB. All commands have to be accepted.
over() {
    cp "$folder/$1.db" "$folder/run.db"
    rm -f "$folder/run.db-wal"
    turn "$@" > "$folder/in"
    drive few --book "$folder/run.db" < "$folder/in" > "$folder/out"
    if grep -q refused "$folder/out"; then
        echo "years.sh: a command was refused" >&2
        exit 1
    fi
    awk '{ print $1 + $2, $4 }' "$folder/took"
}

# tells WHAT COUNT RUN RUN: what one of so many takes, by two runs
tells() {
    # shellcheck disable=SC2086 # a run is two words
    echo $3 $4 | awk -v what="$1" -v count="$2" '{
        printf "%-52s %9.2f us %6.0f bytes\n", what, ($3 - $1) / count * 1e6, ($4 - $2) * 1024 / count
    }'
}

book 64
book "$most"
few=$(over 64 0 0)
start=$(over "$most" 0 0)
tells "a contract, at the start over $most" $((most - 64)) "$few" "$start"
tells "a command, beside 64 contracts" $((3 * turns)) "$few" "$(over 64 "$turns" 0)"
tells "a command, beside $most contracts" $((3 * turns)) "$start" "$(over "$most" "$turns" 0)"
tells "a release and a retirement, of the oldest of them" 10000 "$start" "$(over "$most" 10000 1)"
tells "a release and a retirement, in the middle" 10000 "$start" "$(over "$most" 10000 $((most / 2)))"

# So many commands: all contracts are reserved, and then the newest one goes and comes again.
sold() {
    awk 'BEGIN { for (number = 0; number < 4096; number++) print "reserve c" number }'
    turn 4096 $((($1 - 4096) / 3)) 4096 | awk '{ print } NR % 2 == 0 { print "reserve c4095" }'
}

sold 1000000 > "$folder/in"
drive many < /dev/null
# shellcheck disable=SC2002 # a pipe is meant
cat "$folder/in" | drive many > "$folder/out"
awk -v count="$(wc -l < "$folder/out")" -v refused="$(grep -c refused "$folder/out")" '{
    printf "%d commands without a book, %d refused: %.2f us each, %d KiB at most\n", count, refused, ($1 + $2) / count * 1e6, $4
}' "$folder/took"
sold 65536 > "$folder/in"
# shellcheck disable=SC2002 # a pipe is meant
cat "$folder/in" | drive many --book "$folder/book.db" > "$folder/out"
awk -v count="$(wc -l < "$folder/out")" '{ printf "%d commands by a pipe with a book: %.2f s\n", count, $3 }' "$folder/took"
echo look | drive many --book "$folder/book.db" > "$folder/out"
awk -v look="$(cat "$folder/out")" '{ printf "a start over them (%s): %.2f s\n", look, $3 }' "$folder/took"
