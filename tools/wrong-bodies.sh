#!/bin/sh
# Tries the wrong bodies of the crates, in must-fail/ and wrong/, on a copy: tools/wrong-bodies.sh [--anew] [--times] [--gate] [--due] [CRATE ..]
# Its last line is `N refused, M not`.
exec python3 "$(dirname "$0")/wrong_bodies.py" "$@"
