#!/bin/sh
# Runs the gate, or it over some crates, and tells what it cost: tools/gate-cost.sh [WORDS OF rt ci ..]
# Proof, tests, seed and edits of each crate in processor seconds, the dearest ten, and the whole.
# With --anew the gate proves all again, which is what a new machine pays.
exec python3 "$(dirname "$0")/gate_cost.py" "$@"
