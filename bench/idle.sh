#!/bin/sh
# What an idle relay and an idle gateway take of a processor: as they run, with sleeps that may end late, and, where
# this may be changed (by root), with sleeps that end within 50 us, as Linux has it. Nothing is sent to them. All else on
# the machine disturbs the figures: a processor that has other work needn't be woken, and one that hasn't is slow at
# first. It builds nothing: `rt run` in crates/amt leaves the binary at crates/amt/out/amt.
#
# usage: bench/idle.sh [AMT [SECONDS]]        Linux
set -eu

here=$(cd "$(dirname "$0")" && pwd)
amt=${1:-$here/../crates/amt/out/amt}
seconds=${2:-4}
if [ ! -x "$amt" ]; then
    echo "idle: no binary $amt: \`rt run\` in crates/amt leaves it there" >&2
    exit 1
fi

work=$(mktemp -d)
process=
trap 'end; rm -rf "$work"' EXIT
trap 'exit 1' INT TERM

# An address of the loopback that two runs of this script don't share.
address=127.78.$(($$ % 255)).1

cat > "$work/relay.toml" << END
relay = "192.0.2.1"
listen = "$address:2268"
feed = "$address:9000"
END
cat > "$work/gateway.toml" << END
family = "v4"
listen = "$address:5000"
deliver = "$address:5001"
control = "$address:5002"
discovery = "$address:2267"
source = "198.51.100.7"
END

end() {
    if [ -n "$process" ]; then
        kill "$process" 2> /dev/null || true
        wait "$process" 2> /dev/null || true
        process=
    fi
}

# spent: nanoseconds of processor time, and how often it slept, of all threads
spent() {
    cat /proc/"$process"/task/*/schedstat | awk '{ sum += $1 } END { printf "%d ", sum }'
    awk '$1 == "voluntary_ctxt_switches:" { sum += $2 } END { print sum }' /proc/"$process"/task/*/status
}

# idle WORDS..: hundredths of a processor and wakings a second, as `figures`: as it runs, and with sleeps that end soon
idle() {
    "$amt" "$@" > /dev/null &
    process=$!
    sleep 1
    measure
    late=$figures
    figures='        -         -'
    if { echo 50000 > /proc/"$process"/timerslack_ns; } 2> /dev/null; then
        measure
    fi
    end
}

# measure: hundredths of a processor and wakings a second, as `figures`
measure() {
    before=$(spent)
    sleep "$seconds"
    after=$(spent)
    figures=$(echo "$before $after" | awk -v seconds="$seconds" '
        { printf "%9.2f %9.0f", ($3 - $1) / seconds / 1e7, ($4 - $2) / seconds }')
}

# show WHAT WORDS..
show() {
    what=$1
    shift
    idle "$@"
    printf '%-20s %s %s\n' "$what" "$late" "$figures"
}

echo "$(getconf _NPROCESSORS_ONLN) processors;$(uptime | sed 's/.*load/ load/'); $seconds s each"
printf '%-20s %19s %19s\n' '' 'as it runs' 'within 50 us'
printf '%-20s %9s %9s %9s %9s\n' '' 'of 100' wakings/s 'of 100' wakings/s
show 'relay, 0 workers' relay "$work/relay.toml"
show 'relay, 1 worker' relay "$work/relay.toml" --workers 1
show 'gateway' gateway "$work/gateway.toml"
