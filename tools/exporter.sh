#!/bin/sh
# Tests amt-exporter: tools/exporter.sh [COMMAND [WORD..]]
# COMMAND is the binary of `amt`, and without one (or for -) no real relay is asked. With words, only tests with one of them in
# their names are run. All goes over the loopback, and takes about a minute.
exec python3 "$(dirname "$0")/exporter.py" "$@"
