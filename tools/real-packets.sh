#!/bin/sh
# Tests amt-feed, amt-deliver and amt-join between two network namespaces: tools/real-packets.sh [WORD..]
# It needs root, and makes and removes its own namespaces. With words, only tests with one of them in their names are run.
exec python3 "$(dirname "$0")/real_packets.py" "$@"
