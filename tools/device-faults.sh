#!/bin/sh
# Faults of real devices, each once: tools/device-faults.sh [COMMAND]
# COMMAND is the binary of `amt`. All of it goes over the loopback, and takes about a minute.
exec python3 "$(dirname "$0")/device_faults.py" "$@"
