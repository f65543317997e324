#!/bin/sh
# A relay with as many endpoints as it may have: tools/load-held.sh [COMMAND [QUERY_SECONDS [ENDPOINTS]]]
# COMMAND is the binary of `amt`. It takes some three minutes, and ends with 0 where the relay held all of it.
exec python3 "$(dirname "$0")/load_held.py" "$@"
