#!/bin/bash
# Looks for a broker that answers with a book that was not sold, or that lacks a command that it answered, where its
# file is damaged, or the disk fails or is full. It prints what came of each kind, and ends with status 1 where one
# was wrong.
#
#     bench/book_faults.sh [STEP] [AT ONCE]
#
# Bytes: a small book is sold, and its broker ends by itself, or is killed. In each of these two books each byte of
# the file, and each STEP-th of its log (each by default), is changed, in its lowest bit and in all of them, so many
# at once (as many as there are processors). The next broker tells a fault and nothing else, or shows exactly what was
# sold after one of the commands, with the rows of these commands in the file; but for a change of the log it shows
# all that was sold.
#
# Calls: by `strace` each call of write, pwrite64, fsync, fdatasync, ftruncate, pread64, fallocate and openat on the
# files fails in turn with EIO or ENOSPC, alone or with all that follow it, while a new book is sold, and while one goes
# on whose broker was killed; and so do those that copy a long log into the file amid a sale. The broker tells a fault,
# the next one has every command that was answered, and at most one more, and sqlite3 finds the file sound.
#
# Paths: amid a sale the file goes to another path, or a copy takes its place, or its log goes. The next command is not
# answered, `dsedge: book Write` is told with status 4, and once the files are back the next broker has what was
# answered.
#
# Locks: by `strace` each lock is granted, as on a file system whose locks keep nobody off. `drive` and `book` tell
# `dsedge: book Busy` with status 4.
#
# Disks: on a tmpfs of 4, 8, .. 512 KiB the broker sells until it is full. All that it answered is there, on that disk
# or as it tells that it cannot be read there, and in a copy with room. This needs the right to mount, or namespaces
# of users.
set -u

bench=$(CDPATH='' cd -- "$(dirname -- "$0")" && pwd)
program=${DSEDGE:-$bench/../crates/dsedge/out/dsedge}
step=${1:-1}
at_once=${2:-$(nproc)}
if [ ! -x "$program" ]; then
    echo "book_faults.sh: $program is not built: ./dsedge builds it" >&2
    exit 2
fi
for tool in sqlite3 strace; do
    if [ -z "$(command -v "$tool")" ]; then
        echo "book_faults.sh: there is no $tool" >&2
        exit 2
    fi
done
# syncs cost nothing there
folder=$(mktemp -d -p /dev/shm)
trap 'rm -rf "$folder"' EXIT
trap 'exit 1' INT TERM
rustc -O --edition 2021 -o "$folder/judge" "$bench/judge_book/main.rs" || exit 2

cp "$bench/../examples/tight_burst.toml" "$folder/small.toml"
cat > "$folder/small" << 'END'
reserve a
release 1 1000000000
reserve b
retire 1 1005999999
retire 1 1006000000
reserve b
release 2 2000000000
reserve c
END
"$bench/generate_broker.sh" 512 > "$folder/large.toml"
awk 'BEGIN {
    for (contract = 0; contract < 512; contract++) print "reserve c" contract
    for (contract = 1; contract <= 512; contract++) printf "release %d %.0f\n", contract, 1000000000 * contract
    for (contract = 1; contract <= 512; contract++) printf "retire %d %.0f\n", contract, 1000000000 * (1000 + contract)
}' > "$folder/large"

# Sells a contract, does what is said to the files, releases it, undoes that, and looks what the next broker has.
takes() {
    local kind=$1 done=$2 undone=$3 room=$folder/paths broker status held
    mkdir "$room"
    mkfifo "$room/pipe"
    "$program" drive "$folder/small.toml" --book "$room/book.db" < "$room/pipe" > "$room/out" 2> "$room/told" &
    broker=$!
    exec 3> "$room/pipe"
    echo 'reserve a' >&3
    for _ in {1..200}; do
        [ -s "$room/out" ] && break
        sleep 0.05
    done
    (cd "$room" && eval "$done")
    echo 'release 1 1000000000' >&3
    exec 3>&-
    wait "$broker"
    status=$?
    (cd "$room" && eval "$undone")
    held=$(echo list | "$program" drive "$folder/small.toml" --book "$room/book.db" | cut -d ' ' -f 1,2 | tr '\n' ' ')
    if [ "$status" -eq 4 ] && [ "$(cat "$room/told")" = 'dsedge: book Write' ] &&
        [ "$(cut -d ' ' -f 1,2 "$room/out")" = 'granted 1' ] && [ "$held" = '1 a ' ]; then
        echo "paths: $kind: nothing more is answered, and what was answered is there"
    else
        echo "paths: $kind: status $status, told $(cat "$room/told"), answered $(cat "$room/out"), held $held"
        failed=1
    fi
    rm -r "$room"
}

# Looks that a command with a book refuses its file where each lock is granted.
unlocked() {
    local told status
    told=$(echo list | strace -f -o /dev/null -e trace=fcntl -e inject=fcntl:retval=0 "$program" "$@" 2>&1)
    status=$?
    if [ "$status" -eq 4 ] && [ "$told" = 'dsedge: book Busy' ]; then
        echo "locks: $1: a file is refused where each lock is granted"
    else
        echo "locks: $1: status $status, told $told"
        failed=1
    fi
}

failed=0
takes 'the file is moved away' 'mv book.db away' 'mv away book.db'
takes 'a copy takes its place' 'cp book.db copy && mv book.db away && mv copy book.db' 'mv away book.db'
takes 'its log is moved away' 'mv book.db-wal away' 'mv away book.db-wal'
echo 'reserve a' | "$program" drive "$folder/small.toml" --book "$folder/book.db" > /dev/null || failed=1
unlocked drive "$folder/small.toml" --book "$folder/book.db"
unlocked book "$folder/small.toml" "$folder/book.db"
"$folder/judge" bytes "$program" "$folder/small.toml" "$folder/small" "$folder/room" "$step" "$at_once" || failed=1
"$folder/judge" calls "$program" "$folder/small.toml" "$folder/small" "$folder/room" || failed=1
"$folder/judge" copying "$program" "$folder/large.toml" "$folder/large" "$folder/room" || failed=1
apart=(unshare -m)
[ "$(id -u)" -eq 0 ] || apart=(unshare -rm)
"${apart[@]}" "$folder/judge" full "$program" "$folder/large.toml" "$folder/large" "$folder/room" 4 512 || failed=1
exit "$failed"
