#!/bin/sh
# Checks the man page and the completion for bash against the program: man has no warning of the page, and each command and each
# option that `--help` tells stands in both. Checks too that `--version` names the logic of the kit that is installed, that the
# layers in ARCHITECTURE.md are those that layers.sh draws, that the examples in JSON are what is
# answered, and that a fault is one line in a pipe, and more at a terminal and where --explain asks for it.
#
#     docs/check.sh
set -eu

docs=$(CDPATH='' cd -- "$(dirname -- "$0")" && pwd)
program=$docs/../crates/dsedge/out/dsedge
page=$docs/dsedge.1
completion=$docs/../examples/dsedge.bash

if [ ! -x "$program" ]; then
    echo "check.sh: $program is not built: ./dsedge builds it" >&2
    exit 2
fi

# A line of the list of commands in `--help`: its name.
commands() {
    "$program" --help | awk '/^Commands:/ { within = 1; next } /^$/ { within = 0 } within && $1 != "help" { print $1 }'
}

# Each long and short option of a command's help.
options() {
    "$program" "$@" --help | grep -oE '(^|[ ,])--?[A-Za-z][a-z-]*' | tr -d ' ,' | sort -u
}

missing=0
lacks() {
    echo "check.sh: $1 lacks $2" >&2
    missing=1
}

warnings=$(man --warnings -E UTF-8 -l -Tutf8 -Z "$page" 2>&1 > /dev/null)
[ -z "$warnings" ] || lacks "$page" "what man warns of: $warnings"

for command in $(commands); do
    grep -qx "\.B $command" "$page" || lacks "$page" "$command"
    grep -qw "$command" "$completion" || lacks "$completion" "$command"
    for option in $(options "$command"); do
        # the page writes a dash as \-
        grep -qF -- "$(printf '%s' "$option" | sed 's/-/\\-/g')" "$page" || lacks "$page" "$option of $command"
        case $option in
            --*) grep -q -- "$option" "$completion" || lacks "$completion" "$option of $command" ;;
        esac
    done
done
logic=$(rt version | sed -n 's/.* logic //p')
[ "$("$program" --version | sed -n 's/^logic //p')" = "$logic" ] || lacks "--version" "the logic of rt version: $logic"

room=$(mktemp -d)
trap 'rm -rf "$room"' EXIT

# The examples in JSON are what the program answers.
examples=$docs/../examples
answers_as() {
    wanted=$examples/json/$1
    shift
    "$program" "$@" < "$input" | cmp -s - "$wanted" || lacks "$wanted" "the answer to $*"
}
input=/dev/null
"$program" certify "$examples/three_trusted.toml" > "$room/certificate.txt"
sed 's/cbs = 13500/cbs = 13499/' "$examples/three_trusted.toml" > "$room/tight.toml"
answers_as check.json check --json "$examples/three_trusted.toml" "$room/certificate.txt"
answers_as refused.json check --json "$room/tight.toml" "$room/certificate.txt"
answers_as headroom.json headroom --json "$examples/three_trusted.toml"
answers_as certificate.json certify --json "$examples/three_trusted.toml"
answers_as quote.json quote --json "$examples/three_trusted.toml" --contract b --most cbs
answers_as count.json quote --json "$examples/three_trusted.toml" --contract b --count
sed 's/cbs = 13500/cbs = 4500/' "$examples/three_trusted.toml" > "$room/tight.toml"
answers_as none.json quote --json "$room/tight.toml" --contract b --most cbs
input=$examples/three_packets.txt
answers_as kept.json envelope --json --rate 8000000000 --burst 12
answers_as over.json envelope --json --rate 8000000000 --burst 10
input=$examples/policed_steps.txt
"$program" certify "$examples/one_policed.toml" > "$room/policed.txt"
answers_as audit.json audit --json "$examples/one_policed.toml" "$room/policed.txt"
"$program" meter --json --kind trtcm --mode blind --cir 8000 --cbs 1500 --pir 16000 --pbs 3000 \
    < "$examples/two_bursts.txt" | tail -n 1 | cmp -s - "$examples/json/accounts.json" \
    || lacks "$examples/json/accounts.json" "the accounts of meter"

input=$examples/tight_commands.txt
answers_as drive.json drive --json "$examples/tight_burst.toml"
input=$examples/offer_commands.txt
answers_as offers.json drive --json "$examples/tight_burst.toml"
"$program" certify "$examples/voice_and_web.toml" > "$room/voice_and_web.txt"
"$program" mark --json "$examples/voice_and_web.toml" "$room/voice_and_web.txt" --port customer --red keep \
    < "$examples/voice_and_web.pcap" 2> "$room/mark.json" > /dev/null
cmp -s "$room/mark.json" "$examples/json/mark.json" || lacks "$examples/json/mark.json" "the report of mark"
"$program" meter --json 2> "$room/fault.json" || head -n 1 "$examples/json/faults.json" | cmp -s - "$room/fault.json" \
    || lacks "$examples/json/faults.json" "the fault of words"

# A fault with something to say behind it: one line in a pipe, and at a terminal the rest too.
echo 'dscert 4' > "$room/bad.txt"
run="'$program' check '$docs/../examples/three_trusted.toml' '$room/bad.txt'"
told='dsedge: certificate 1 Text'
sh -c "$run" 2> "$room/told" || true
[ "$(cat "$room/told")" = "$told" ] || lacks "standard error in a pipe" "the line of a fault alone: $(cat "$room/told")"
script -qc "$run" "$room/shown" > /dev/null < /dev/null || true
grep -q '^line 1: a line is not one of a certificate' "$room/shown" || lacks "standard error at a terminal" "what there is to say"

sed 's/name = "b"/name = "B"/' "$examples/three_trusted.toml" > "$room/capital.toml"
"$program" certify "$room/capital.toml" --explain 2> "$room/told" || true
printf '%s\n' 'dsedge: domain 3 Range contract 1 name' "$room/capital.toml:31:1: contract \"B\": name = \"B\"" \
    'name: 1 to 32 of a to z, 0 to 9, - and _' | cmp -s - "$room/told" || lacks "standard error with --explain" "the place of a fault"

layers=$("$docs/layers.sh")
case $(cat "$docs/ARCHITECTURE.md") in
    *"$layers"*) ;;
    *) lacks ARCHITECTURE.md "the layers as layers.sh draws them" ;;
esac

[ "$missing" -eq 0 ] && echo "the man page and the completion name all commands and options, --version the logic, ARCHITECTURE.md the layers, and faults are told"
exit "$missing"
