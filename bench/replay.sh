#!/bin/sh
# What the proved binary costs over scripts of Discovery, of Request and of mixed lines, over one of a gateway
# that packets come to, and over one of both ends, and of a dump of Queries, beside sed over the same octets;
# then the cost of one update, packet and moment by the number of live tunnel endpoints, of a packet to 1,000 of
# them, of what goes upstream, and of a load. Times are of the processor, and the least of some runs, so that other work on the machine
# disturbs them little. It builds nothing: `rt run` in crates/amt leaves the binary at crates/amt/out/amt.
#
# usage: bench/replay.sh [BINARY]
set -eu

here=$(cd "$(dirname "$0")/.." && pwd)
amt=${1:-$here/crates/amt/out/amt}
runs=5
count=20000
work=$(mktemp -d)
trap 'rm -rf "$work"' EXIT

if [ ! -x "$amt" ]; then
    echo "no binary at $amt: run 'rt run -- replay relay < stdin' in crates/amt first" >&2
    exit 1
fi

mixed() {
    python3 "$here/bench/mixed.py" "$@"
}

# script KIND MIB: a relay's address, or a gateway that is served, or both, and lines up to so many MiB
script() {
    case $1 in
        discovery) line='dg 198.51.100.7:5000 0100000001020304' ;;
        request) line='dg 198.51.100.7:5000 030000000a0b0c0d' ;;
        mixed)
            mixed mixed 1000 $(($2 * 1048576))
            return
            ;;
        gateway | pair)
            python3 "$here/bench/$1.py" $(($2 * 1048576))
            return
            ;;
    esac
    echo 'set relay 192.0.2.1'
    yes "$line" | head -n $(($2 * 1048576 / (${#line} + 1) - 1))
}

# cost FILE COMMAND..: its milliseconds and its peak KB over the file
cost() {
    python3 "$here/bench/cost.py" $runs "$@"
}

# replay FILE [END]: the milliseconds of its replay, by a relay if no other end is given
replay() {
    cost "$1" "$amt" replay "${2:-relay}" | cut -d ' ' -f 1
}

# peak FILE [END]: the most memory that a replay of it takes, in KB
peak() {
    cost "$1" "$amt" replay "${2:-relay}" | cut -d ' ' -f 2
}

# each BEFORE AFTER COUNT: the milliseconds between, in microseconds for each
each() {
    awk "BEGIN { printf \"%.1f\", ($2 - $1) * 1000 / $3 }"
}

printf '%-10s %4s %8s %8s %7s %9s\n' lines MiB 'amt ms' 'sed ms' ratio 'peak KB'
for kind in discovery request mixed gateway pair; do
    case $kind in
        gateway | pair) end=$kind ;;
        *) end=relay ;;
    esac
    for mib in 1 4 16; do
        input=$work/$kind.$mib
        script "$kind" "$mib" > "$input"
        a=$(replay "$input" $end)
        s=$(cost "$input" sed 's/dg /> /' | cut -d ' ' -f 1)
        ratio=$(awk "BEGIN { printf \"%.1f\", $a / ($s > 0 ? $s : 1) }")
        printf '%-10s %4s %8s %8s %7s %9s\n' "$kind" "$mib" "$a" "$s" "$ratio" "$(peak "$input" $end)"
    done
done

# A Query with an IGMPv3 General Query, for 198.51.100.7:5000.
query=04014db758a175550a0b0c0d46c000240000000001028211c0000201e0000001940400001164ec1e00000000027d00001388000000000000000000000000c6336407
for mib in 1 4 16; do
    input=$work/dump.$mib
    yes "$query" | head -n $((mib * 1048576 / (${#query} + 1))) > "$input"
    a=$(cost "$input" "$amt" dump | cut -d ' ' -f 1)
    s=$(cost "$input" sed 's/^04/query /' | cut -d ' ' -f 1)
    ratio=$(awk "BEGIN { printf \"%.1f\", $a / ($s > 0 ? $s : 1) }")
    printf '%-10s %4s %8s %8s %7s %9s\n' dump "$mib" "$a" "$s" "$ratio" \
        "$(cost "$input" "$amt" dump | cut -d ' ' -f 2)"
done

# What so many lines more cost, in microseconds a line. Each packet goes to one endpoint, nothing
# expires at a moment, and in the last column each endpoint expires once.
printf '\n%-10s %8s %10s %10s %10s %10s %8s\n' \
    endpoints 'joins ms' 'update us' 'packet us' 'moment us' 'expiry us' 'peak KB'
for endpoints in 100 1000 10000 65536; do
    mixed joins $endpoints > "$work/joins"
    mixed updates $endpoints $count > "$work/updates"
    mixed packets $endpoints $count > "$work/packets"
    mixed moments $endpoints $count > "$work/moments"
    mixed expiry $endpoints > "$work/expiry"
    j=$(replay "$work/joins")
    u=$(replay "$work/updates")
    p=$(replay "$work/packets")
    m=$(replay "$work/moments")
    e=$(replay "$work/expiry")
    printf '%-10s %8s %10s %10s %10s %10s %8s\n' $endpoints "$j" \
        "$(each "$j" "$u" $count)" "$(each "$j" "$p" $count)" "$(each "$j" "$m" $count)" \
        "$(each "$j" "$e" $endpoints)" "$(peak "$work/joins")"
done

# A packet that goes to 1,000 endpoints.
printf '\n%-10s %14s\n' endpoints 'to 1,000 us'
for endpoints in 1000 65536; do
    mixed receivers $endpoints 0 > "$work/none"
    mixed receivers $endpoints 100 > "$work/some"
    printf '%-10s %14s\n' $endpoints "$(each "$(replay "$work/none")" "$(replay "$work/some")" 100)"
done

# What goes upstream: scripts of mixed lines as `replay relay` takes them and as `replay upstream` does; an update of one source
# on a group on which each endpoint has 64 of its own; and a moment at which all endpoints expire.
printf '\n%-10s %8s %12s %7s\n' mixed 'relay ms' 'upstream ms' ratio
for mib in 1 4 16; do
    r=$(replay "$work/mixed.$mib")
    u=$(replay "$work/mixed.$mib" upstream)
    printf '%-10s %8s %12s %7s\n' "$mib MiB" "$r" "$u" "$(awk "BEGIN { printf \"%.2f\", $u / $r }")"
done
printf '\n%-10s %10s %10s\n' endpoints 'update us' 'expiry us'
for endpoints in 200 2000 20000; do
    mixed shared $endpoints 0 > "$work/joins"
    mixed shared $endpoints 2000 > "$work/updates"
    { cat "$work/joins"; echo 'at 260000'; } > "$work/expiry"
    j=$(replay "$work/joins" upstream)
    printf '%-10s %10s %10s\n' $endpoints "$(each "$j" "$(replay "$work/updates" upstream)" 2000)" \
        "$(each "$j" "$(replay "$work/expiry" upstream)" $endpoints)"
done

# A load: an event is an Update, but for the 17 others.
printf '\n%-10s %8s %10s %8s\n' load ms 'event us' 'peak KB'
for endpoints in 4096 65536; do
    set -- $(cost /dev/null "$amt" load 7 $endpoints)
    printf '%-10s %8s %10s %8s\n' $endpoints "$1" "$(each 0 "$1" $((endpoints + 17)))" "$2"
done
