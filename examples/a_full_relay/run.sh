#!/bin/sh
# Loads a relay with as many endpoints as it may have. Ends with 0 where that took less than 60 seconds.
#
# usage: run.sh [COMMAND]      COMMAND is the binary of `amt`
set -eu

here=$(cd "$(dirname "$0")" && pwd)
exec timeout 60 "${1:-$here/../../crates/amt/out/amt}" load 7 65536
