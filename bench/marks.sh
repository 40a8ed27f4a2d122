#!/bin/bash
# Marks captures by `dsedge mark` and by the plain program, in turns, and prints the best wall and processor times, their ratios,
# and the most memory that each took. Both have to write the same capture and tell the same report. There are three domains:
#
#     mixed    100 contracts over 10 meters; red frames are kept, and dropped
#     single   one contract and one meter; the same
#     many     4,096 contracts of one port over one meter, each with a source of its own; all frames are of the first, of the last,
#              or of none, and stand beside the same frames in the single domain
#
# Then the mixed domain by several workers, beside one, and captures of few records, each many times, since one is marked in a
# few ms. Beside the first, tcprewrite (of Debian's tcpreplay), where it is there,
# puts one code point into the same frames. Last comes the most memory on a capture of ten times as many records.
#
#     bench/marks.sh [RECORDS] [REPEATS] [RECORDS FOR MEMORY] [WORKERS..]
set -eu

bench=$(CDPATH='' cd -- "$(dirname -- "$0")" && pwd)
proved=$bench/../crates/dsedge/out/dsedge
count=${1:-1000000}
repeats=${2:-7}
more=${3:-$((10 * count))}
workers=("${@:4}")
[ "${#workers[@]}" -gt 0 ] || workers=(2 3 4)

if [ ! -x "$proved" ]; then
    echo "marks.sh: $proved is not built: ./dsedge builds it" >&2
    exit 2
fi
folder=$(mktemp -d)
# where a program fails, what it told stands in its report
trap '[ $? -eq 0 ] || cat "$folder"/*.report >&2; rm -rf "$folder"' EXIT

# The words of a run, which is PROGRAM:DOMAIN:RED:WORKERS.
words_of() {
    IFS=: read -r program domain red count_of_workers <<< "$1"
    case $program in
        proved)
            words=("$proved" mark "$folder/$domain.toml" "$folder/$domain.certificate" --port port --red "$red")
            words+=(--workers "$count_of_workers")
            ;;
        plain) words=("$folder/plain" "$folder/$domain.toml" port "$red" "$count_of_workers") ;;
        rewriting) words=(tcprewrite --tos=40 "--infile=$folder/in.pcap" "--outfile=$folder/$1.out") ;;
    esac
}

# Makes a run on the capture, and notes its wall and processor time in ms.
taken() {
    words_of "$1"
    TIMEFORMAT='%3R %3U %3S'
    { time "${words[@]}" < "$folder/in.pcap" > "$folder/$1.out" 2> "$folder/$1.report"; } 2> "$folder/time"
    awk '{ print $1 * 1000, ($2 + $3) * 1000 }' "$folder/time" >> "$folder/$1.times"
}

# Makes these runs, all of them so many times, in turns.
in_turns() {
    rm -f "$folder"/*.times "$folder"/*.out
    turn=0
    while [ "$turn" -lt "$repeats" ]; do
        for run; do
            taken "$run"
        done
        turn=$((turn + 1))
    done
}

# Whether two runs wrote the same capture and told the same report.
same() {
    cmp "$folder/$1.out" "$folder/$2.out"
    cmp "$folder/$1.report" "$folder/$2.report"
}

# The most memory of a run on the capture, in KB, by GNU time.
memory() {
    words_of "$1"
    /usr/bin/time -q -f %M -o "$folder/memory" "${words[@]}" < "$folder/in.pcap" > /dev/null 2>&1
    tail -n 1 "$folder/memory"
}

# The least of a column of a run's times.
least() {
    cut -d ' ' -f "$2" "$folder/$1.times" | sort -n | head -n 1
}

# Tells a run's best times, and its most memory.
tells() {
    awk -v name="$1" -v wall="$(least "$1" 1)" -v processor="$(least "$1" 2)" -v count="$count" -v memory="$(memory "$1")" 'BEGIN {
        printf "%-22s wall %6.0f ms  processor %6.0f ms, %6.0f ns a record  %8d KB at most\n",
            name, wall, processor, processor * 1e6 / count, memory
    }'
}

# Tells the best times of a run beside those of another.
beside() {
    awk -v names="$1 beside $2" -v a="$(least "$1" 1)" -v b="$(least "$2" 1)" -v c="$(least "$1" 2)" -v d="$(least "$2" 2)" 'BEGIN {
        printf "%s: wall %.2f, processor %.2f\n", names, a / b, c / d
    }'
}

# What a run took beyond what it takes for a capture without records, in ms.
frames_of() {
    awk -v none="$(least "$1" 2)" '{ print $1 - none }' "$folder/$1.whole"
}

# Tells the processor time that frames took in a run beside that in another.
beyond() {
    awk -v names="$1 beside $2" -v a="$(frames_of "$1")" -v b="$(frames_of "$2")" -v count="$count" 'BEGIN {
        printf "%s, without what stands before the frames: %.0f ns a record beside %.0f, processor %.2f\n",
            names, a * 1e6 / count, b * 1e6 / count, b ? a / b : 0
    }'
}

rustc -O --edition 2021 -o "$folder/generate" "$bench/generate_capture/main.rs"
rustc -O --edition 2021 -o "$folder/plain" "$bench/plain_marks/main.rs"
for domain in mixed single many; do
    "$folder/generate" domain "$domain" > "$folder/$domain.toml"
    "$proved" certify "$folder/$domain.toml" > "$folder/$domain.certificate"
    echo "$domain: $("$proved" check "$folder/$domain.toml" "$folder/$domain.certificate")"
done
echo "$count records, best of $repeats"

for domain in mixed single; do
    "$folder/generate" capture "$domain" "$count" > "$folder/in.pcap"
    for red in keep drop; do
        both=("proved:$domain:$red:1" "plain:$domain:$red:1")
        runs=("${both[@]}")
        [ "$domain" != mixed ] || [ -z "$(command -v tcprewrite)" ] || runs+=("rewriting:$domain:$red:1")
        in_turns "${runs[@]}"
        same "${both[@]}"
        echo "$domain, --red $red: the same capture, $(wc -c < "$folder/${both[1]}.out") bytes, and the same report:"
        cat "$folder/${both[1]}.report"
        for run in "${runs[@]}"; do
            tells "$run"
        done
        beside "${both[@]}"
        [ "${#runs[@]}" -lt 3 ] || beside "${runs[2]}" "${runs[0]}"
    done
done

for taker in first last stray; do
    "$folder/generate" capture "$taker" "$count" > "$folder/in.pcap"
    runs=()
    for program in proved plain; do
        runs+=("$program:single:keep:1" "$program:many:keep:1")
    done
    in_turns "${runs[@]}"
    same "${runs[0]}" "${runs[2]}"
    same "${runs[1]}" "${runs[3]}"
    echo "many, frames of the contract: $taker"
    for run in "${runs[@]}"; do
        tells "$run"
        least "$run" 2 > "$folder/$run.whole"
    done
    # of a capture without records, so that the time that the domain and its certificate take is left out
    "$folder/generate" capture "$taker" 0 > "$folder/in.pcap"
    in_turns "${runs[@]}"
    beyond "${runs[1]}" "${runs[0]}"
    beyond "${runs[3]}" "${runs[2]}"
    beyond "${runs[1]}" "${runs[3]}"
done

"$folder/generate" capture mixed "$count" > "$folder/in.pcap"
for number in "${workers[@]}"; do
    words_of "proved:mixed:keep:$number"
    if ! "${words[@]}" < "$folder/in.pcap" > /dev/null 2> "$folder/refused"; then
        echo "$number workers: $(cat "$folder/refused")"
        continue
    fi
    runs=()
    for program in proved plain; do
        runs+=("$program:mixed:keep:1" "$program:mixed:keep:$number")
    done
    in_turns "${runs[@]}"
    for run in "${runs[@]}"; do
        same "$run" "${runs[0]}"
        tells "$run"
    done
    beside "${runs[1]}" "${runs[0]}"
    beside "${runs[3]}" "${runs[2]}"
    beside "${runs[1]}" "${runs[3]}"
done

# Short captures, by one worker and by four, each so many times in one run.
times=100

# Marks the capture so many times by so many workers, one after the other, and notes the wall and processor time of one in us.
#
#     repeated WORKERS
repeated() {
    words_of "proved:mixed:keep:$1"
    TIMEFORMAT='%3R %3U %3S'
    {
        time for ((pass = 0; pass < times; pass++)); do
            "${words[@]}" < "$folder/in.pcap" > "$folder/short.$1.out" 2> "$folder/short.$1.report"
        done
    } 2> "$folder/time"
    awk -v times="$times" '{ print $1 * 1e6 / times, ($2 + $3) * 1e6 / times }' "$folder/time" >> "$folder/short.$1.times"
}

for short in 1 10 1000; do
    "$folder/generate" capture mixed "$short" > "$folder/in.pcap"
    rm -f "$folder"/short.*
    turn=0
    while [ "$turn" -lt "$repeats" ]; do
        repeated 1
        repeated 4
        turn=$((turn + 1))
    done
    same short.4 short.1
    for number in 1 4; do
        awk -v short="$short" -v number="$number" -v wall="$(least "short.$number" 1)" -v processor="$(least "short.$number" 2)" 'BEGIN {
            printf "%5d records, %d workers: wall %7.0f us  processor %7.0f us\n", short, number, wall, processor
        }'
    done
    beside short.4 short.1
done

rm "$folder"/*.out
[ "$more" -gt 0 ] || exit 0
"$folder/generate" capture mixed "$more" > "$folder/in.pcap"
echo "$more records, $(wc -c < "$folder/in.pcap") bytes: proved $(memory proved:mixed:keep:1) KB at most, plain $(memory plain:mixed:keep:1) KB"
