#!/bin/sh
# Judges `amt replay relay` and `amt replay upstream` by a plain model over random scripts: tools/plain-relay.sh AMT [SCRIPTS [SEED]]
# The model keeps each accepted entry and reckons everything from the whole list anew.
exec python3 "$(dirname "$0")/plain_relay.py" "$@"
