#!/bin/sh
# What members that vanished cost the others: tools/dead-neighbours.sh [--gone N,..] [--workers N,..] [--waiting OCTETS] [--send-buffer OCTETS] [COMMAND]
# It needs root, and makes and removes its own network namespaces. COMMAND is the binary of `amt`.
exec python3 "$(dirname "$0")/dead_neighbours.py" "$@"
