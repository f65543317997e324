#!/bin/bash
# A multicast stream of each family from a real sender through a relay, a unicast link and gateways to a host that joins by its
# own kernel. It needs root, and makes and removes its own network namespaces. Ends with 0 where all that was sent from the first
# packet on came in, once, and within 20 seconds in any case.
#
# usage: run.sh [--stay] [COMMAND]      COMMAND is the binary of `amt`; with --stay the network stands until Enter is pressed
set -eu

here=$(cd "$(dirname "$0")" && pwd)
tools=$here/../../tools
stay=
if [ "${1:-}" = --stay ]; then
    stay=1
    shift
fi
amt=${1:-${AMT:-$here/../../crates/amt/out/amt}}
group4=233.252.0.1
group6=ff3e::8000:1
port=5004
# How many packets go to each group, at a hundred a second; which one has to come at the latest; and how many go out at last.
packets=400
patience=300
afterwards=50
source=amt-source-$$
relay=amt-relay-$$
gateway=amt-gateway-$$
host=amt-host-$$
work=$(mktemp -d)

end() {
    exec 3>&- 4>&- || true
    kill $(jobs -p) 2> /dev/null || true
    wait 2> /dev/null || true
    for name in $source $relay $gateway $host; do ip netns del "$name" 2> /dev/null || true; done
    rm -rf "$work"
}
trap end EXIT
trap 'exit 1' INT TERM HUP

fail() {
    echo "run.sh: $1" >&2
    for log in "$work"/*.log; do [ ! -e "$log" ] || sed "s,^,  $(basename "$log" .log): ," "$log" >&2; done
    exit 1
}

[ "$(id -u)" = 0 ] || fail "it needs root, for network namespaces"
[ -x "${amt%% *}" ] || fail "no binary $amt: \`rt run\` in crates/amt leaves it there"

# link NAME DEVICE NAME DEVICE: between two namespaces
link() {
    ip -n "$1" link add "$2" type veth peer name "$4" netns "$3"
    ip -n "$1" link set "$2" up
    ip -n "$3" link set "$4" up
}

# at NAME DEVICE ADDRESS..
at() {
    local name=$1 device=$2 address
    shift 2
    for address; do ip -n "$name" address add "$address" dev "$device"; done
}

# inside NAME COMMAND..: runs a command there
inside() {
    local name=$1
    shift
    exec ip netns exec "$name" "$@"
}

# said FILE TEXT: waits until the file has a line that begins with this
said() {
    until grep -q "^$2" "$work/$1" 2> /dev/null; do
        [ $SECONDS -lt 17 ] || fail "$1 doesn't say: $2"
        sleep 0.05
    done
}

# bound NAME PORT: waits until something listens at this port there
bound() {
    until ip netns exec "$1" cat /proc/net/udp /proc/net/udp6 | grep -q ":$(printf %04X "$2") "; do
        [ $SECONDS -lt 17 ] || fail "nothing listens at the port $2"
        sleep 0.05
    done
}

# number FILE NAME: the count of this name in the last line of the file
number() {
    tail -n 1 "$work/$1" | sed -n "s/.*\b$2 \([0-9]*\).*/\1/p"
}

for name in $source $relay $gateway $host; do
    ip netns add "$name"
    ip -n "$name" link set lo up
    # Link-local addresses count at once.
    ip netns exec "$name" sh -c 'echo 0 > /proc/sys/net/ipv6/conf/default/accept_dad'
done
link $source mc0 $relay mc0
link $relay wan0 $gateway wan0
link $gateway lan0 $host lan0
at $source mc0 203.0.113.5/24 2001:db8:1::5/64
at $relay mc0 203.0.113.1/24 2001:db8:1::1/64
at $relay wan0 192.0.2.1/24 2001:db8:2::1/64
at $gateway wan0 192.0.2.2/24 2001:db8:2::2/64
at $gateway lan0 198.51.100.1/24 2001:db8:3::1/64
at $host lan0 198.51.100.2/24 2001:db8:3::2/64
# The host checks strictly whether a source is where its packets come from, and its router is the gateway.
ip -n $host route add default via 198.51.100.1
ip netns exec $host sh -c 'echo 1 > /proc/sys/net/ipv4/conf/lan0/rp_filter'

inside $relay $amt relay "$here/relay.toml" 2> "$work/relay.log" &
inside $gateway $amt gateway "$here/gateway4.toml" 2> "$work/gateway4.log" &
inside $gateway $amt gateway "$here/gateway6.toml" 2> "$work/gateway6.log" &
inside $relay "$tools/amt-feed" --interface mc0 --group $group4 --group $group6 --to 127.0.0.1:9000 > "$work/feed.log" 2>&1 &
feed=$!
inside $gateway "$tools/amt-deliver" --listen 127.0.0.1:9001 --interface lan0 > "$work/deliver.log" 2>&1 &
deliver=$!
for it in 2268 9000; do bound $relay $it; done
for it in 9004 9006; do bound $gateway $it; done
inside $gateway "$tools/amt-join" --interface lan0 --family v4 --control 127.0.0.1:9004 > "$work/join4.log" 2>&1 &
join4=$!
inside $gateway "$tools/amt-join" --interface lan0 --family v6 --control 127.0.0.1:9006 > "$work/join6.log" 2>&1 &
join6=$!
for it in feed deliver join4 join6; do said $it.log ready; done

if [ "$stay" ]; then
    echo "the source is $source, the receiver $host: ip netns exec NAME COMMAND runs a command there"
    echo "Enter takes all away"
    read -r _ || true
    exit 0
fi

exec 3> >(inside $source python3 "$here/source.py" mc0 $port $group4 $group6 > "$work/sent.log" 2>&1)
echo "the source sends $packets packets to each of $group4 and $group6"
echo $packets >&3
sleep 0.5
exec 4> >(inside $host python3 "$here/receiver.py" lan0 $port $group4 $group6 > "$work/received.log" 2>&1)
said received.log joined
echo "a host joins both groups by its own kernel"
said sent.log "$packets\$"
sleep 0.5
exec 4>&-
said received.log "$group6 "
echo

good=1
total=0
for group in $group4 $group6; do
    read -r _ first last once again < <(grep "^$group " "$work/received.log")
    echo "$group: the first packet that came is number $first"
    echo "$group: packets sent from that one on: $((packets - first + 1))"
    echo "$group: packets received: $once"
    echo "$group: packets received again: $again"
    [ "$first" -ge 1 ] && [ "$first" -le $patience ] && [ "$last" = $packets ] && [ "$once" = $((packets - first + 1)) ] && [ "$again" = 0 ] || good=
    total=$((total + once))
done
echo
[ "$good" ] || fail "not all that was sent came in once"

echo "the host has left, and the source sends $afterwards packets more to each group"
said join4.log "close "
said join6.log "close "
sleep 0.5
echo $afterwards >&3
said sent.log "$((packets + afterwards))\$"
sleep 0.3
kill $feed $deliver $join4 $join6
wait $feed || fail "amt-feed ended with $?"
wait $deliver || fail "amt-deliver ended with $?"
wait $join4 || fail "amt-join ended with $?"
wait $join6 || fail "amt-join ended with $?"
echo "amt-feed: packets passed: $(number feed.log passed)"
echo "amt-feed: packets lost: $(number feed.log lost)"
echo "amt-deliver: packets sent: $(number deliver.log sent)"
echo "amt-deliver: packets that nobody had joined: $(($(number deliver.log sent) - total))"
[ "$(number feed.log passed)" = $((2 * (packets + afterwards))) ] || fail "amt-feed passed another number"
[ "$(number deliver.log sent)" = $total ] || fail "packets came that nobody had joined"
grep -hE "^(open|change|close) " "$work/join4.log" "$work/join6.log" | sed 's,^,amt-join: ,'
