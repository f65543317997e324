#!/bin/sh
# Asks a running relay and a running gateway by lines: tools/asked.sh [COMMAND]
# COMMAND is the binary of `amt`, and crates/amt/out/amt without it. All goes over the loopback, in half a minute.
exec python3 "$(dirname "$0")/asked.py" "$@"
