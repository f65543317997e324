#!/bin/bash
# Runs every example and compares what it writes with `expected` beside it.
#
# usage: tools/run-examples.sh [COMMAND]      COMMAND is the binary of `amt`, and crates/amt/out/amt without it
#
# A folder of examples/ with a `script` is replayed, and an `answer` of DNS is told, as its README says; a `capture` has to
# become its `script` and its `lines`. One with a `run.sh` is run over the loopback, or a_real_stream between network
# namespaces where this user may make some, for some seconds; where it has a script besides, its status counts alone. In the
# `expected` of such a run NONCE, MAC and PORT stand for what is random, and N for a number that depends on how often a
# message had to be sent again. A line that comes several times in a row, as a message that is sent again, counts once. A
# folder with neither has nothing to run.
#
# It says of each folder whether it passed, and ends with 1 where one did not.
set -eu

top=$(cd "$(dirname "$0")/.." && pwd)
amt=${1:-$top/crates/amt/out/amt}
work=$(mktemp -d)
trap 'rm -rf "$work"' EXIT
failed=0

if [ ! -x "${amt%% *}" ]; then
    echo "run-examples: no binary $amt: \`rt run\` in crates/amt leaves it there" >&2
    exit 1
fi

# like EXPECTED OUTPUT: whether each line of the output is as expected, or the first one that isn't
like() {
    local pattern line number=0
    sed -E -e 's/[][\\.*^$+?(){}|]/\\&/g' -e 's/NONCE/[0-9a-f]{8}/g' -e 's/MAC/[0-9a-f]{12}/g' \
        -e 's/PORT/[0-9a-f]{4}/g' -e 's/ N$/ [0-9]+/' "$1" > "$work/patterns"
    uniq "$2" > "$work/lines"
    if [ "$(wc -l < "$work/lines")" != "$(wc -l < "$1")" ]; then
        echo "  $(wc -l < "$work/lines") lines, expected are $(wc -l < "$1")"
        return 1
    fi
    while IFS= read -r line <&3 && IFS= read -r pattern <&4; do
        number=$((number + 1))
        if ! [[ $line =~ ^$pattern$ ]]; then
            echo "  line $number: $line"
            return 1
        fi
    done 3< "$work/lines" 4< "$work/patterns"
}

# say NAME WHAT STATUS: one line, and what went wrong below it
say() {
    if [ "$3" = 0 ]; then
        echo "passed  $1: $2"
    else
        echo "FAILED  $1: $2"
        head -n 20 "$work/said"
        failed=1
    fi
}

# tell FOLDER INPUT COMMAND: what the command writes for the input is as expected
tell() {
    local status=0
    $amt $3 < "$1/$2" > "$work/output" 2> "$work/said" || status=$?
    if [ $status = 0 ]; then
        diff "$1/expected" "$work/output" > "$work/said" || status=$?
    fi
    say "$(basename "$1")" "$3" $status
}

# captured FOLDER: the script and the lines of a capture are as they should be
captured() {
    local status=0
    $amt pcap 192.0.2.1 < "$1/capture" 2> "$work/said" | diff "$1/script" - >> "$work/said" || status=$?
    $amt pcap < "$1/capture" 2>> "$work/said" | diff "$1/lines" - >> "$work/said" || status=$?
    say "$(basename "$1")" pcap $status
}

# named PATTERN FOLDER: the command in the README that fits
named() {
    grep -o -m 1 "$1 <" "$2/README.md" | sed 's/ <$//'
}

# run_once FOLDER: runs it over the loopback
run_once() {
    local command=$amt
    # This one is handed the whole command.
    if [ "$(basename "$1")" = a_running_relay ]; then command="$amt relay"; fi
    "$1/run.sh" "$command" > "$work/output" 2> "$work/said" || return
    if [ ! -e "$1/script" ]; then
        like "$1/expected" "$work/output" > "$work/said" || return
    fi
}

# What else the machine does may make a message late, so a run that fails is tried once more.
run() {
    local status=0
    run_once "$1" || run_once "$1" || status=$?
    say "$(basename "$1")" "run" $status
}

# may_run FOLDER: this user may run it here
may_run() {
    [ "$(basename "$1")" != a_real_stream ] && return
    [ -e /proc/sys/net/ipv6/conf ] || return
    ip netns add "amt-try-$$" 2> /dev/null && ip -n "amt-try-$$" link add amt0 type veth peer name amt1 2> /dev/null
    local status=$?
    ip netns del "amt-try-$$" 2> /dev/null
    return $status
}

for folder in "$top"/examples/*/; do
    folder=${folder%/}
    if ! may_run "$folder"; then
        echo "nothing $(basename "$folder"): this user can't make network namespaces here, or there is no IPv6"
        continue
    fi
    if [ -e "$folder/script" ]; then tell "$folder" script "$(named 'replay \(relay\|upstream\|gateway\|pair\|dual\)' "$folder")"; fi
    if [ -e "$folder/capture" ]; then captured "$folder"; fi
    if [ -e "$folder/answer" ]; then tell "$folder" answer "$(named 'dns [0-9a-f.:]*' "$folder")"; fi
    if [ -e "$folder/run.sh" ]; then run "$folder"; fi
    if [ ! -e "$folder/script" ] && [ ! -e "$folder/answer" ] && [ ! -e "$folder/run.sh" ]; then echo "nothing $(basename "$folder")"; fi
done
exit $failed
