#!/bin/sh
# Plays the session over real sockets, and compares it with its replay. Ends with 0 where both are the same, after some
# twenty seconds.
#
# usage: run.sh [COMMAND]      COMMAND is the binary of `amt`
set -eu

here=$(cd "$(dirname "$0")" && pwd)
exec python3 "$here/../../tools/play_pair.py" "$here/script" "${1:-$here/../../crates/amt/out/amt}"
