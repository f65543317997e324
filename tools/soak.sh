#!/bin/sh
# Both ends for some minutes over a hop that loses, repeats and reorders: tools/soak.sh MINUTES [COMMAND [SEED [PACKETS]]]
# COMMAND is the binary of `amt`. It ends with 0 where all was as the tool's own record says.
exec python3 "$(dirname "$0")/soak.py" "$@"
