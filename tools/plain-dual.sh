#!/bin/sh
# Judges `amt replay dual` and `amt replay pair` by a plain model of both ends: tools/plain-dual.sh AMT [SCRIPTS [SEED]]
# With `cases` in the place of AMT the cases of the repository are judged by it, and no program is run.
exec python3 "$(dirname "$0")/plain_dual.py" "$@"
