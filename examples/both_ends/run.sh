#!/bin/bash
# Starts a relay and a gateway for some seconds, sends packets to the relay, and shows which the gateway hands on. Ends
# with 0 where ten packets came and both ends did all their turns, and within ten seconds in any case.
#
# usage: run.sh [COMMAND]      COMMAND is the binary of `amt`
set -eu

here=$(cd "$(dirname "$0")" && pwd)
amt=${1:-$here/../../crates/amt/out/amt}
# An idle turn takes some 8 ms, so these are some 6.4 s and 5.5 s, and 1.6 s and 1.4 s where the system ends sleeps on
# time: the relay goes on for longer than the gateway.
relay_turns=750
gateway_turns=650
work=$(mktemp -d)
trap 'kill $(jobs -p) 2> /dev/null || true; rm -rf "$work"' EXIT
trap 'exit 1' INT TERM

fail() {
    echo "run.sh: $1" >&2
    exit 1
}

# bound PORT: waits until 127.0.0.1 and this port are bound, by the system's own list
bound() {
    until grep -q "0100007F:$(printf %04X "$1") " /proc/net/udp; do
        [ $SECONDS -lt 9 ] || fail "nothing listens at the port $1"
        sleep 0.05
    done
}

# packets GROUP FIRST COUNT: sends so many numbered packets, waits until all of them were handed on, and prints them
packets() {
    echo "$1 $2 $3" >&3
    until [ "$(wc -l < "$work/delivered")" -ge $(($2 + $3 - 1)) ]; do
        [ $SECONDS -lt 9 ] || fail "a packet to $1 was not handed on"
        sleep 0.05
    done
    tail -n "+$2" "$work/delivered"
}

# control LINE: one datagram with this line
control() {
    echo "control: $1"
    echo "$1" > /dev/udp/127.0.0.1/2271
    # A turn or two at each end: the gateway reports what changed, and the relay publishes it.
    sleep 0.2
}

exec 3> >(exec python3 "$here/send.py" 127.0.0.1:2269)
python3 "$here/listen.py" 127.0.0.1:2272 > "$work/delivered" &
bound 2272
timeout 9 $amt relay "$here/relay.toml" --turns $relay_turns > "$work/relay" &
relay=$!
bound 2268
timeout 9 $amt gateway "$here/gateway.toml" --turns $gateway_turns > "$work/gateway" &
gateway=$!
bound 2271
# Discovery, Advertisement, Request, Query and Update take some turns.
sleep 0.3

echo "five packets to 233.252.0.1, which the gateway's settings join:"
packets 233.252.0.1 1 5
control "open radio 233.252.0.2 include 203.0.113.5"
echo "five packets to 233.252.0.2:"
packets 233.252.0.2 6 5
control "leave"
echo "another packet to 233.252.0.1:"
echo "233.252.0.1 11 1" >&3
sleep 0.2
[ "$(wc -l < "$work/delivered")" = 10 ] || fail "a packet that nobody wants was handed on"
echo "  nothing is handed on"

echo
echo "the gateway goes on until $gateway_turns turns are done, and reports:"
wait $gateway || fail "the gateway ended with $?"
cat "$work/gateway"
echo
echo "the relay goes on until $relay_turns turns are done, and reports:"
wait $relay || fail "the relay ended with $?"
cat "$work/relay"
