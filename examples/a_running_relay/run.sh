#!/bin/sh
# Starts a relay for some seconds, lets a gateway have one session with it, and prints the relay's report. Ends with 0
# where the session and the report are as expected, and within ten seconds in any case.
#
# usage: run.sh [COMMAND]      COMMAND is `amt relay`, with the path of its binary
set -eu

here=$(cd "$(dirname "$0")" && pwd)
relay=${1:-$here/../../crates/amt/out/amt relay}
# An idle turn takes some 8 ms, so these are some 6 s, and 1.5 s where the system ends sleeps on time.
turns=700
report=$(mktemp)
process=

end() {
    [ -z "$process" ] || kill "$process" 2> /dev/null || true
    rm -f "$report"
}
trap end EXIT
trap 'exit 1' INT TERM

# Whatever hangs is ended after nine seconds.
timeout 9 $relay "$here/relay.toml" --turns $turns > "$report" &
process=$!
timeout 9 python3 "$here/client.py" 127.0.0.1:2268 127.0.0.1:2269

echo
echo "the relay goes on until $turns turns are done, and reports:"
status=0
wait $process || status=$?
process=
cat "$report"
if [ $status != 0 ]; then
    echo "run.sh: the relay ended with $status" >&2
    exit 1
fi
# A message that was sent twice would make more datagrams and sends; all else is known.
for line in 'end turns' "turns $turns" 'packets 2' 'updated 1' 'torn 1' 'unsent 0' 'inline 0' 'starved 0' 'late 0' \
    'owed 0' 'apart 0'; do
    if ! grep -qx "$line" "$report"; then
        echo "run.sh: the report has no line: $line" >&2
        exit 1
    fi
done
