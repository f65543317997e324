#!/bin/sh
# Refuses each allocation of three sessions in turn, and tells what comes of it: tools/refuse-memory.sh --help
exec python3 "$(dirname "$0")/refuse_memory.py" "$@"
