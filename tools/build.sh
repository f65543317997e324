#!/bin/sh
# Proves all libraries below `amt`, as many at a time as there are processors, and builds crates/amt/out/amt.
exec python3 "$(dirname "$0")/build.py" "$@"
