#!/bin/sh
# What one member with a good MAC can cost the others: tools/flood.sh [--updates N,..] [--workers N,..] [--report KIND] [--records N] [--filter FILE] [COMMAND]
# It needs root, and makes and removes its own network namespaces. COMMAND is the binary of `amt`.
exec python3 "$(dirname "$0")/flood.py" "$@"
