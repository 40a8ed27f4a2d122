# Shared by the scripts that time a proved program of this folder. They set `bench`, this folder, and `folder`, one of their own.

# Proves and builds the program of bench/NAME, which uses the libraries that are named, in a copy of these and what is below them
# with what is built here already; its path goes into `proved`.
#
#     build NAME LIBRARY..
build() {
    name=$1
    shift
    mkdir -p "$folder/crates"
    cp "$bench/../HANDLES" "$folder"
    below "$@" > "$folder/crates.txt"
    cut -d : -f 1 "$folder/crates.txt" | while read -r crate; do
        cp -R "$bench/../crates/$crate" "$folder/crates"
    done
    mkdir -p "$folder/crates/${name}_bench/src"
    # it stands under another ending here, since the gate wants each .rt file in a crate
    cp "$bench/$name/main.rattle" "$folder/crates/${name}_bench/src/main.rt"
    # which ledger its call picks, where it makes one
    if [ -e "$bench/$name/picks" ]; then
        mkdir -p "$folder/crates/${name}_bench/proofs/told"
        cp "$bench/$name/picks" "$folder/crates/${name}_bench/proofs/told/Invariants.antt"
    fi
    echo "${name}_bench: $*" >> "$folder/crates.txt"
    echo "$name: rt proves and builds the program, which takes some minutes where the crates are not built" >&2
    # the run itself ends with status 2, since it is given no words
    (cd "$folder/crates/${name}_bench" && rt run > "$folder/build.log" 2>&1 < /dev/null) || true
    proved=$folder/crates/${name}_bench/out/${name}_bench
    if [ ! -x "$proved" ]; then
        tail "$folder/build.log" >&2
        exit 2
    fi
}

# The lines of crates.txt for these crates and all below them.
#
#     below LIBRARY..
below() {
    awk -F ': *' -v names="$*" '
        function mark(name,    count, place, used) {
            if (name in marked || !(name in line)) return
            marked[name] = 1
            count = split(uses[name], used, " ")
            for (place = 1; place <= count; place++) mark(used[place])
        }
        !/^#/ { line[$1] = $0; uses[$1] = $2; order[++lines] = $1 }
        END {
            count = split(names, given, " ")
            for (place = 1; place <= count; place++) mark(given[place])
            for (place = 1; place <= lines; place++) if (order[place] in marked) print line[order[place]]
        }' "$bench/../crates.txt"
}

# The time that a program takes with these words, in nanoseconds; its input is INPUT, and its output goes to OUTPUT.
#
#     timed INPUT OUTPUT PROGRAM WORD..
timed() {
    input=$1
    output=$2
    shift 2
    begin=$(date +%s%N)
    "$@" < "$input" > "$output"
    end=$(date +%s%N)
    echo $((end - begin))
}

# The least of the times in a file.
best() {
    sort -n "$1" | head -n 1
}

# Times the program `proved` and the plain program beside it, in turns, on the file that `given` names, if any, with two words and a count, and with the count 0, in
# which nothing but the preparation is done; their outputs have to be the same. What a run takes beyond its preparation goes, in
# nanoseconds, into `proved_time` and `plain_time`.
#
#     beside REPEATS WORD WORD COUNT
beside() {
    rm -f "$folder"/*.times
    turn=0
    while [ "$turn" -lt "$1" ]; do
        for program in proved plain; do
            path=$proved
            [ "$program" = proved ] || path=$folder/plain
            timed "${given:-/dev/null}" "$folder/$program.none" "$path" "$2" "$3" 0 >> "$folder/$program.none.times"
            timed "${given:-/dev/null}" "$folder/$program.out" "$path" "$2" "$3" "$4" >> "$folder/$program.times"
        done
        turn=$((turn + 1))
    done
    cmp "$folder/proved.out" "$folder/plain.out"
    proved_time=$(($(best "$folder/proved.times") - $(best "$folder/proved.none.times")))
    plain_time=$(($(best "$folder/plain.times") - $(best "$folder/plain.none.times")))
}
