#!/bin/sh
# Kills a broker that keeps its book in a file, at random moments, and looks whether all that it answered is there.
#
#     bench/kill.sh [ROUNDS] [FOLDER]
#
# In each of so many rounds (1,000) `dsedge drive --book` sells from a pipe, in pieces of random sizes, until SIGKILL ends it; the
# book goes on in the next round. After each, `sqlite3` finds the file sound, each answer that was written stands there as a row
# under its serial, and serials have no gap. At the end the program itself reads the book. FOLDER is where the file stands (one of
# its own by default). Ends with status 1 at the first thing that is not so.
set -eu

bench=$(CDPATH='' cd -- "$(dirname -- "$0")" && pwd)
program=$bench/../crates/dsedge/out/dsedge
rounds=${1:-1000}
if [ ! -x "$program" ]; then
    echo "kill.sh: $program is not built: ./dsedge builds it" >&2
    exit 2
fi
folder=$(mktemp -d ${2:+-p "$2"})
trap 'rm -rf "$folder"' EXIT
"$bench/generate_broker.sh" 512 > "$folder/domain.toml"
book=$folder/book.db
: > "$folder/answers"

fails() {
    echo "kill.sh: round $round: $1" >&2
    exit 1
}

# Commands without end: sales, releases and retirements, of which many are refused.
commands() {
    awk -v seed="$1" 'BEGIN {
        srand(seed)
        for (;;) {
            pieces = int(rand() * 40) + 1
            for (line = 0; line < pieces; line++) {
                turn = rand()
                id = int(rand() * 2000) + 1
                if (turn < 0.6) print "reserve c" int(rand() * 512)
                else if (turn < 0.8) printf "release %d %.0f\n", id, seed * 1000000000000
                else printf "retire %d %.0f\n", id, seed * 1000000000000 + 500000000000
            }
            fflush()
        }
    }' 2> /dev/null
}

round=0
while [ "$round" -lt "$rounds" ]; do
    round=$((round + 1))
    mkfifo "$folder/pipe"
    "$program" drive "$folder/domain.toml" --book "$book" --commands 16777216 < "$folder/pipe" > "$folder/out" 2> "$folder/told" &
    broker=$!
    commands "$round" > "$folder/pipe" &
    seller=$!
    sleep "$(awk -v seed="$round" 'BEGIN { srand(seed * 7919); printf "%.3f", 0.02 + rand() * 0.08 }')"
    kill -KILL "$broker" 2> /dev/null || fails "the broker ended by itself: $(cat "$folder/told")"
    wait "$broker" 2> /dev/null || true
    kill "$seller" 2> /dev/null || true
    wait "$seller" 2> /dev/null || true
    rm -f "$folder/pipe"
    # a line that was cut off tells nothing
    awk '/^(granted|released|retired) / && NF >= 3 { print }' "$folder/out" | sed '$d' >> "$folder/answers"
    # before the first answer the file may be half made, and nothing has to be there
    [ -s "$folder/answers" ] || continue
    # sqlite3 looks at a copy, since it moves what stands in the log
    cp "$book" "$folder/copy.db"
    cp "$book-wal" "$folder/copy.db-wal"
    sound=$(sqlite3 "$folder/copy.db" 'pragma integrity_check' 2>&1) || fails "sqlite3 does not read it: $sound"
    [ "$sound" = ok ] || fails "sqlite3 says: $sound"
    sqlite3 -separator ' ' "$folder/copy.db" 'select serial, done, id from command order by serial' > "$folder/rows"
    rm -f "$folder/copy.db" "$folder/copy.db-wal" "$folder/copy.db-shm"
    awk '
        NR == FNR { if ($1 != NR) { print "a gap before serial " $1; exit 1 } row[$1] = $2 " " $3; next }
        { done = $1 == "granted" ? "reserve" : $1 == "released" ? "release" : "retire" }
        row[$3] != done " " $2 { print "not there: " $0; exit 1 }
        told[$3]++ { print "told twice: " $0; exit 1 }
    ' "$folder/rows" "$folder/answers" > "$folder/wrong" || fails "$(cat "$folder/wrong")"
done
count=$(wc -l < "$folder/rows")
told=$(wc -l < "$folder/answers")
look=$(echo look | "$program" drive "$folder/domain.toml" --book "$book" --commands 16777216)
case $look in
    "serial $count contracts "*) ;;
    *) fails "the program reads another book: $look, and there are $count rows" ;;
esac
echo "killed $rounds times: $count commands are kept, among them all $told that were answered"
