#!/bin/bash
# Marks every capture among the sources of Debian's packages wireshark, tcpdump, libpcap, tcpreplay and ndpi by `dsedge
# mark`, and has it judged twice. Captures are found by their first four bytes, also within .gz files.
#
#     bench/debian.sh [FOLDER] [AT ONCE]
#
# The packages come by `apt-get source` with lists of its own into FOLDER (one of its own by default), tcpreplay from
# Ubuntu's archive where Debian's mirror lacks it, and from FOLDER where they stand in it already; so many captures
# (as many as there are processors) are judged at once. Each is marked in a domain that takes all packets of IPv4 and
# IPv6, with `--red keep` and `--red drop`, by one worker and by four.
#
# A plain Rust program (bench/judge_marks) reckons what has to be written, told and refused: the marked capture byte
# for byte, up to the first fault, the report, the fault's line, and the lines of `arrivals`; of the capture, and of
# sixteen copies of it with harm: one that is cut off, and others with a changed byte at the front of a record or a
# block. Then tshark reads the capture before and behind the marking: the same frames at the same moments with the
# same protocols, columns, complaints and states of checksums, no packet malformed that was not before, the code
# points as they should be, and no other changed. What `--red drop` left is compared with the capture as it was
# without its red frames.
#
# TSHARK names another tshark, and none where it is empty; PACKAGES names other packages, and MOST is how many bytes a
# file has at most that is looked at.
#
# It prints counts by format and link type, the refusals by their fault, and a line for each difference; and ends with
# status 1 where there is one.
set -u

bench=$(CDPATH='' cd -- "$(dirname -- "$0")" && pwd)
program=${DSEDGE:-$bench/../crates/dsedge/out/dsedge}
tshark=${TSHARK-$(command -v tshark)}

# What tshark tells of each frame; the last two columns are the code points of its headers.
tell_frames() {
    HOME=$folder/none "$tshark" -n -r "$1" -o ip.check_checksum:TRUE -T fields \
        -e frame.time_epoch -e frame.len -e frame.cap_len -e frame.protocols \
        -e _ws.malformed -e _ws.short -e _ws.unreassembled -e _ws.expert.message -e ip.checksum.status -e _ws.col.Protocol \
        -e _ws.col.Info -e ip.dsfield.dscp -e ipv6.tclass.dscp 2> /dev/null |
        sed 's/\[should be 0x[0-9a-f]*\]/[should be]/g'
}

# Compares what tshark told before and behind the marking, where the judge says which frame has which code point now:
# one line for the first frame of each difference.
compares() {
    awk -F '\t' -v OFS='\t' '
        FILENAME == ARGV[1] { frame[++frames] = $0; next }
        FILENAME == ARGV[2] { before[++ones] = $0; next }
        { after[++others] = $0 }
        # the first code point of the family is the marked one
        function put(list, dscp) { sub(/^[0-9]+/, dscp, list); return list }
        END {
            # tshark refuses a capture of another minor version than it knows, marked or not
            if (ones == 0 && others == 0) exit
            if (frames != ones || ones != others) {
                print "frames: judge " frames ", before " ones ", behind " others
                exit
            }
            for (place = 1; place <= frames; place++) {
                split(frame[place], said, " ")
                count = split(before[place], old, "\t")
                if (said[2] != "-" && said[2] != "event") {
                    column = said[3] == 6 ? count : count - 1
                    if (old[column] == "") { print "frame " said[1] ": tshark sees no such packet"; exit }
                    old[column] = put(old[column], said[2])
                    # a wrong checksum stays as it is, and is by accident that of the header with the new code point
                    split(after[place], new, "\t")
                    if (old[9] ~ /^0/ && new[9] ~ /^1/) {
                        sub(/^0/, "1", old[9])
                        sub(/Bad checksum \[should be\],?/, "", old[8])
                    }
                }
                line = old[1]
                for (column = 2; column <= count; column++) line = line OFS old[column]
                if (line != after[place]) {
                    print "frame " said[1] ": wanted " line ", is " after[place]
                    exit
                }
            }
        }' "$1" "$2" "$3"
}

# Compares what the program made of a capture in a room with what the judge wants: RUN, and what it is of.
wants() {
    cmp -s "$room/$1" "$room/${3:-$1}.wanted" || differs "$2: another output than the judge's"
    cmp -s "$room/$1.report" "$room/${3:-$1}.told" || differs "$2: another report than the judge's"
}

# Marks a file with a rule for red frames: what is written and told goes behind RUN and RUN.report.
#
#     marks RED WORKERS FILE RUN
marks() {
    "$program" mark "$folder/domain.toml" "$folder/certificate" --port p --red "$1" --workers "$2" \
        < "$3" >> "$room/$4" 2>> "$room/$4.report"
}

# Marks copies of a capture with harm.
harms() {
    for ((harm = 0; harm < 16; harm++)); do
        marks drop 1 "$room/harmed.$harm" harms
    done
    wants harms "copies with harm"
    sed -n 's/^dsedge: capture //p' "$room/harms.report" >> "$folder/harms"
    echo "$harm" >> "$folder/copies"
}

# Has tshark, where it is there, compare the frames that a rule for red frames leaves, before and behind the marking.
sees() {
    [ -n "$tshark" ] || return 0
    tell_frames "$room/$1.before" > "$room/before.frames"
    tell_frames "$room/$1" > "$room/behind.frames"
    compares "$room/$1.numbers" "$room/before.frames" "$room/behind.frames" > "$room/wrong"
    [ ! -s "$room/wrong" ] || differs "tshark, --red $1: $(cat "$room/wrong")"
}

# Marks one capture by each rule for red frames, and tells a line: format, link types, how it ended, counts, differences,
# path.
judges() {
    local path=$1 room red status ended counts format links told
    room=$(mktemp -d -p "$folder")
    local differences=0
    differs() {
        echo "$path: $1" >> "$folder/differences"
        differences=$((differences + 1))
    }
    read -r format links <<< "$("$folder/judge" all "$path" "$room")"
    for red in keep drop; do
        marks "$red" 1 "$path" "$red"
        status=$?
        ended=$(sed -n 's/^dsedge: capture //p' "$room/$red.report")
        wants "$red" "--red $red"
        [ "$status" -eq "$([ -n "$ended" ] && echo 3 || echo 0)" ] || differs "--red $red ends with status $status"
        # a shorter one is marked by one thread however many there are
        if [ "$(wc -c < "$path")" -gt 262144 ]; then
            marks "$red" 4 "$path" several
            wants several "--red $red, four workers" "$red"
            rm "$room/several" "$room/several.report"
        fi
    done
    "$program" arrivals --colours < "$path" > "$room/arrivals" 2>&1
    cmp -s "$room/arrivals" "$room/arrivals.wanted" || differs "arrivals tells otherwise than the judge"
    counts=$(awk '/^(records|marked|skipped|dropped) / { printf "%s ", $2 }' "$room/drop.report")
    told=unchanged
    if ! cmp -s "$room/keep" "$room/keep.before"; then
        told=marked
        sees keep
        # without red frames there is nothing new to see
        cmp -s "$room/keep" "$room/drop" || sees drop
    fi
    # a capture that is refused by its heading is refused with harm too
    case $ended in
        '3 BadVersion' | '4 LinkType') ;;
        *) harms ;;
    esac
    echo "$format $links $told${ended:+:${ended/ /_}} $counts$differences $path" >> "$folder/counts"
    rm -r "$room"
}

# Judges the captures whose paths it is given.
if [ "${1-}" = --judge ]; then
    folder=$2
    for path in "${@:3}"; do
        judges "$path"
    done
    exit
fi

kept=${1:-}
at_once=${2:-$(nproc)}
[ -n "$tshark" ] || echo "debian.sh: there is no tshark, so captures are judged by the plain program alone" >&2
if [ ! -x "$program" ]; then
    echo "debian.sh: $program is not built: ./dsedge builds it" >&2
    exit 2
fi
folder=$(mktemp -d)
trap 'rm -rf "$folder"' EXIT
trap 'exit 1' INT TERM
kept=${kept:-$folder/kept}
mkdir -p "$kept/lists/partial" "$kept/archives/partial" "$kept/sources"
kept=$(CDPATH='' cd -- "$kept" && pwd)

# A source package's files, by lists of this script's own.
fetches() {
    local source=(-q -o "Dir::Etc::SourceList=$kept/sources.list" -o Dir::Etc::SourceParts=/dev/null -o "Dir::State::Lists=$kept/lists")
    source+=(-o "Dir::Cache=$kept/archives" -o "APT::Sandbox::User=$(id -un)")
    if [ ! -e "$kept/sources.list" ]; then
        # shellcheck source=/dev/null
        (. /etc/os-release && echo "deb-src http://deb.debian.org/debian $VERSION_CODENAME main") > "$kept/sources.list"
        apt-get "${source[@]}" update > /dev/null || return 1
    fi
    (cd "$kept/sources" && apt-get "${source[@]}" source --download-only "$1" > "$kept/$1.log" 2>&1)
}

# A source archive that Debian's mirror may lack, from Ubuntu's, which has the same package.
fetches_elsewhere() {
    [ "$1" = tcpreplay ] || return 1
    (cd "$kept/sources" && curl -fsSO http://archive.ubuntu.com/ubuntu/pool/universe/t/tcpreplay/tcpreplay_4.4.4.orig.tar.xz)
}

packages=()
for package in ${PACKAGES:-wireshark tcpdump libpcap tcpreplay ndpi}; do
    if compgen -G "$kept/sources/${package}_*.orig.tar.*" > /dev/null || fetches "$package" || fetches_elsewhere "$package"; then
        packages+=("$package")
    else
        echo "debian.sh: the sources of $package cannot be had: $(grep '^E: ' "$kept/$package.log" | head -n 1)" >&2
    fi
done
mkdir "$folder/all"
for package in "${packages[@]}"; do
    for archive in "$kept/sources/${package}"_*.tar.*; do
        case $archive in
            *.asc) continue ;;
            *) echo "$(basename "$archive"): $(sha256sum < "$archive" | cut -c 1-16)" ;;
        esac
        mkdir -p "$folder/all/$package"
        tar -C "$folder/all/$package" -xf "$archive"
    done
done
find "$folder/all" -name '*.gz' -type f -exec gunzip -q {} + 2> /dev/null

rustc -O --edition 2021 -o "$folder/judge" "$bench/judge_marks/main.rs" || exit 2
"$folder/judge" domain > "$folder/domain.toml"
"$program" certify "$folder/domain.toml" > "$folder/certificate" || exit 2
: > "$folder/counts"
: > "$folder/differences"
: > "$folder/harms"
: > "$folder/copies"
find "$folder/all" -type f ${MOST:+-size "-$((MOST + 1))c"} -print0 |
    xargs -0 "$folder/judge" captures > "$folder/paths"
echo "$(wc -l < "$folder/paths") captures of ${packages[*]}"
tr '\n' '\0' < "$folder/paths" | xargs -0 -P "$at_once" -n 8 "$0" --judge "$folder" 2> /dev/null

sort "$folder/counts" | awk '
    {
        kind = $1 " " $2
        split($3, how, ":")
        captures[kind]++
        done[kind, how[1]]++
        if (how[2] != "") { refused[kind]++; faults[how[2]]++ }
        records[kind] += $4; marked[kind] += $5; skipped[kind] += $6; dropped[kind] += $7
        wrong += $8
    }
    END {
        form = "%-15s %-8s %8s %8s %9s %7s %8s %8s %8s %8s\n"
        printf form, "format", "link", "captures", "marked", "unchanged", "faulty", "frames", "marked", "skipped", "red"
        for (kind in captures) {
            split(kind, of, " ")
            printf form, of[1], of[2], captures[kind], done[kind, "marked"] + 0, done[kind, "unchanged"] + 0, refused[kind] + 0,
                records[kind], marked[kind], skipped[kind], dropped[kind] | "sort -k 1,1 -k 3,3nr"
            all[1] += captures[kind]; all[2] += done[kind, "marked"]; all[3] += done[kind, "unchanged"]; all[4] += refused[kind]
            all[5] += records[kind]; all[6] += marked[kind]; all[7] += skipped[kind]; all[8] += dropped[kind]
        }
        close("sort -k 1,1 -k 3,3nr")
        printf form, "all", "", all[1], all[2], all[3], all[4], all[5], all[6], all[7], all[8]
        for (fault in faults) printf "refused %s: %d\n", fault, faults[fault] | "sort"
        close("sort")
        printf "differences: %d\n", wrong
    }'
echo "copies with harm: $(awk '{ copies += $1 } END { print copies + 0 }' "$folder/copies")"
sort "$folder/harms" | uniq -c
sort "$folder/differences"
[ ! -s "$folder/differences" ] && [ "$(wc -l < "$folder/counts")" -eq "$(wc -l < "$folder/paths")" ]
