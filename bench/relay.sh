#!/bin/sh
# How fast a running relay is, over the loopback, with packets of 1,344 octets: lost packets at a quarter of the rate
# of a bare `sendto` loop; copies a second at full rate, and the same with a control socket that nobody asks; the
# processor time of a copy and Updates a second with 65,536 live endpoints; the processor time of the longest Updates;
# and what an idle relay takes. In the same run, each figure stands beside the bare loop and beside the least that a
# relay can do, a loop of `recv` and `sendto` in C. All else on the machine disturbs them: the load is printed, and
# `chrt -f 1 bench/relay.sh` gives every program of the trial the same advantage over it; but an idle relay has none,
# since by a real-time policy its sleeps would end on time, which isn't how it runs.
#
# It builds no relay: `rt run` in crates/amt leaves the binary at crates/amt/out/amt. The programs of bench/relay are
# compiled into a folder of its own. COMMAND is called with a settings file and `--workers W`; `loop` is the C loop in
# the place of the relay. With 6 runs of 2 seconds it takes some five minutes.
#
# usage: bench/relay.sh [COMMAND [RUNS [SECONDS]]]
#        bench/relay.sh "crates/amt/out/amt relay" 6 2
set -eu

here=$(cd "$(dirname "$0")" && pwd)
relay=${1:-$here/../crates/amt/out/amt relay}
runs=${2:-6}
seconds=${3:-2}
work=$(mktemp -d)
process=
trap 'end; rm -rf "$work"' EXIT
trap 'exit 1' INT TERM

# An address of the loopback that two runs of this script don't share.
third=$(($$ % 255))
address=127.77.$third.1
link=$address:2268
feed=$address:9000
many=65536

for program in bare flood loop trial; do
    ${CC:-cc} -O2 -o "$work/$program" "$here/relay/$program.c"
done
loop=$work/loop
[ "$relay" != loop ] || relay=$loop

cat > "$work/relay.toml" << END
relay = "192.0.2.1"
listen = "$link"
feed = "$feed"
endpoints = $many
groups = 4
END

# With the limits as they are by default: a long report names more groups than the relay above allows.
grep -v '^endpoints\|^groups' "$work/relay.toml" > "$work/long.toml"

# With a control socket, which nobody asks.
cp "$work/relay.toml" "$work/asked.toml"
echo "control = \"$address:9003\"" >> "$work/asked.toml"

# serve COMMAND WORKERS [SETTINGS]: the relay runs
serve() {
    $1 "$work/${3:-relay}.toml" --workers "$2" > "$work/report" &
    process=$!
}

end() {
    if [ -n "$process" ]; then
        kill "$process" 2> /dev/null || true
        wait "$process" 2> /dev/null || true
        process=
    fi
}

# sum EXPRESSION: its value, to three places
sum() {
    awk "BEGIN { printf \"%.3f\", $1 }"
}

# figure NAME: what the last trial printed of it
figure() {
    awk -v name="$1" '$1 == name { print $2 }' "$work/figures"
}

# keep ROW VALUE: one run's figure of a row
keep() {
    echo "$2" >> "$work/row.$1"
}

# median ROW FORMAT
median() {
    sort -g "$work/row.$1" | awk -v format="$2" '
        { row[NR] = $1 }
        END { printf format, (row[int((NR + 1) / 2)] + row[int(NR / 2) + 1]) / 2 }'
}

# least ROW: processor times are the least of the runs, which other work disturbs little
least() {
    sort -g "$work/row.$1" | head -n 1
}

# bare RECEIVERS: a trial of the bare loop
bare() {
    "$work/trial" - 0 shared "$1" "$work/bare" "$seconds" > "$work/figures"
}

# unread: packets that the system dropped since the buffer of the feed's socket was full
unread() {
    awk -v feed="$(printf '01%02X4D7F:%04X' "$third" 9000)" '$2 == feed { print "unread", $NF }' /proc/net/udp
}

# relayed COMMAND WORKERS KIND ENDPOINTS RATE GROUP [SETTINGS]: a trial of a relay, with so many packets a second to a
# group
relayed() {
    serve "$1" "$2" "${7:-relay}"
    "$work/trial" "$link" "$process" "$3" "$4" "$work/flood" "$feed" "$5" "$seconds" "$6" > "$work/figures"
    unread >> "$work/figures"
    end
    if [ "$(figure arrived)" = 0 ]; then
        echo "no copy came from $1 with $2 workers" >&2
        exit 1
    fi
}

# lost ROW BARE: packets of the last trial that the relay didn't send, and of these those that it hadn't read. What
# the system dropped after it was sent.
lost() {
    keep "lost.$1" "$(($(figure offered) - $(figure arrived) - $(figure dropped))) $(figure unread)"
    keep "share.$1" "$(sum "$(figure offered) / $seconds / $2")"
}

# One run of the quarter rate. What share of the bare rate was offered is kept: a preempted sender offers less.
quarter_rate() {
    bare 1
    bare=$(figure rate)
    for form in loop:0 relay:0 relay:1; do
        command=$relay
        [ ${form%:*} != loop ] || command=$loop
        relayed "$command" ${form#*:} shared 1 $((bare / 4)) 0
        lost $form "$bare"
    done
}

# One run of the full rate, of one receiver and of 16. Half as much again is offered as bare sends would take.
full_rate() {
    bare 1
    one=$(figure rate)
    relayed "$loop" 0 shared 1 $((one * 3 / 2)) 0
    c=$(figure rate)
    relayed "$relay" 0 shared 1 $((one * 3 / 2)) 0
    r=$(figure rate)
    for kept in "bare.1 $one" "c.1 $c" "relay.1 $r" "relay.1.c $(sum "$r / $c")"; do keep $kept; done
    controlled 1 0 $((one * 3 / 2)) "$r"

    bare 16
    all=$(figure rate)
    relayed "$loop" 0 shared 16 $((all * 3 / 32)) 0
    c=$(figure rate)
    relayed "$relay" 1 shared 16 $((all * 3 / 32)) 0
    r=$(figure rate)
    relayed "$relay" 2 shared 16 $((all * 3 / 32)) 0
    two=$(figure rate)
    for kept in "bare.16 $all" "c.16 $c" "relay.16 $r" "relay.16.bare $(sum "$r / $all")" \
        "two.16 $two" "two.16.one $(sum "$two / $r")"; do keep $kept; done
    controlled 16 2 $((all * 3 / 32)) "$two"
}

# controlled RECEIVERS WORKERS RATE WITHOUT: the same with a control socket, beside the rate without
controlled() {
    [ "$relay" != "$loop" ] || return 0
    relayed "$relay" "$2" shared "$1" "$3" 0 asked
    keep "control.$1" "$(figure rate)"
    keep "control.$1.without" "$(sum "$(figure rate) / $4")"
}

# a_copy: microseconds of processor time for each copy of the last trial
a_copy() {
    sum "$(figure processor) * 1000000 / ($(figure arrived) + $(figure dropped))"
}

# One run of packets to one endpoint, of 16 and of all that a relay can have, each with a group of its own.
endpoints() {
    bare 1
    rate=$(($(figure rate) * 3 / 2))
    keep bare.us "$(a_copy)"
    for form in loop relay; do
        command=$relay
        [ $form != loop ] || command=$loop
        relayed "$command" 0 own 16 $rate 7
        keep $form.few "$(a_copy)"
        relayed "$command" 0 own $many $rate 40503
        keep $form.many "$(a_copy)"
        keep $form.updates "$(figure updates)"
        full=$(figure full)
    done
    # The C loop has room for everybody, and never says that it hasn't.
    if [ "$full" != 1 ] && [ "$relay" != "$loop" ]; then
        echo "not all endpoints are live, so their rows would say nothing" >&2
        exit 1
    fi
}

# The longest Updates, by what they say of their groups: see trial.c.
longest='joined unchanged allowed left refused'

# One run of the longest Updates.
long_updates() {
    serve "$relay" 0 long
    "$work/trial" "$link" "$process" long 1 - > "$work/figures"
    end
    for kind in $longest; do keep "relay.$kind" "$(figure "$kind")"; done
}

# idle COMMAND WORKERS: a trial in which nothing comes for three seconds, and hundredths of a processor that it took, by
# the scheduler's usual policy.
idle() {
    serve "chrt -o 0 $1" "$2"
    "$work/trial" "$link" "$process" shared 1 sleep 3 > "$work/figures"
    end
    idle=$(sum "$(figure processor) * 100 / $(figure lasted)")
}

# show WHAT RELAY C BARE SHARE [ASKED CONDITION]
show() {
    met=
    if [ $# -gt 5 ]; then
        met=$(awk "BEGIN { print ($7) ? \"yes\" : \"NO\" }")
    fi
    printf '%-46s %9s %9s %9s %8s %8s %s\n' "$1" "$2" "$3" "$4" "$5" "${6:-}" "$met" | sed 's/ *$//'
}

# show_lost WHAT ROW: the lost packets of each run, and those of them that waited unread in a full buffer
show_lost() {
    kept=$(grep -c '^0 ' "$work/row.lost.$2" || true)
    # In one run of six a packet may be lost.
    met=$(awk "BEGIN { print ($kept * 6 >= $runs * 5) ? \"yes\" : \"NO\" }")
    [ "$2" != loop:0 ] || met=
    printf '%-30s %s of %s %4s  offered %s of bare; lost' "$1" "$kept" "$runs" "$met" "$(median "share.$2" %.2f)"
    awk '{ printf " %s", $1; unread = unread " " $2 } END { print ", unread" unread }' "$work/row.lost.$2"
}

echo "$(getconf _NPROCESSORS_ONLN) processors;$(uptime | sed 's/.*load/ load/')"
run=0
while [ $run -lt "$runs" ]; do
    run=$((run + 1))
    quarter_rate
    full_rate
    endpoints
    [ "$relay" = "$loop" ] || long_updates
done

echo
echo "quarter of the bare rate, 1 receiver: runs without loss (asked: 5 of 6)"
show_lost 'C loop' loop:0
show_lost 'relay, 0 workers' relay:0
show_lost 'relay, 1 worker' relay:1
echo
printf '%-46s %9s %9s %9s %8s %8s %s\n' "medians of $runs runs of $seconds s" relay 'C loop' bare share asked met
share=$(median relay.1.c %.2f)
show 'copies/s, 1 receiver, 0 workers, of C' "$(median relay.1 %.0f)" "$(median c.1 %.0f)" "$(median bare.1 %.0f)" \
    "$share" 0.80 "$share >= 0.8"
share=$(median relay.16.bare %.2f)
show 'copies/s, 16 receivers, 1 worker, of bare' "$(median relay.16 %.0f)" "$(median c.16 %.0f)" \
    "$(median bare.16 %.0f)" "$share" 0.75 "$share >= 0.75"
share=$(median two.16.one %.2f)
show 'copies/s, 16 receivers, 2 workers, of 1 worker' "$(median two.16 %.0f)" "$(median c.16 %.0f)" \
    "$(median bare.16 %.0f)" "$share" '> 1' "$share > 1"
show 'least processor us a copy, 16 endpoints' "$(least relay.few)" "$(least loop.few)" "$(least bare.us)" ''
if [ "$relay" != "$loop" ]; then
    share=$(median control.1.without %.2f)
    show 'copies/s, 1 receiver, a control, of without' "$(median control.1 %.0f)" '' '' "$share" 0.97 "$share >= 0.97"
    share=$(median control.16.without %.2f)
    show 'copies/s, 16, 2 workers, a control, of without' "$(median control.16 %.0f)" '' '' "$share" 0.97 "$share >= 0.97"
fi
share=$(sum "$(least relay.many) / $(least relay.few)")
show "least processor us a copy, $many, of 16" "$(least relay.many)" "$(least loop.many)" "$(least bare.us)" \
    "$share" 1.30 "$share <= 1.3"
updates=$(median relay.updates %.0f)
show "Updates/s, $many endpoints" "$updates" "$(median loop.updates %.0f)" '' '' 20000 "$updates >= 20000"
if [ "$relay" != "$loop" ]; then
    for kind in $longest; do
        long=$(median "relay.$kind" %.0f)
        case $kind in
            joined | unchanged) show "processor us an Update, 60 groups $kind" "$long" '' '' '' 1500 "$long <= 1500" ;;
            allowed) show 'processor us an Update, 5,333 sources allowed' "$long" '' '' '' ;;
            *) show "processor us an Update, 8,000 groups $kind" "$long" '' '' '' ;;
        esac
    done
fi
idle "$loop" 0
c=$idle
for workers in 0 1; do
    idle "$relay" $workers
    show "idle, $workers workers, hundredths of a processor" "$idle" "$c" '' '' 2 "$idle < 2"
done
echo
echo "after that,$(uptime | sed 's/.*load/ load/')"
