#!/bin/sh
# Refuses each allocation of the publishings of tools/refuse_publishing/publishing.rt.in, one at a time, and prints what
# came out. It proves nothing, and works on a copy of the repository.
#
#     tools/refuse-publishing.sh [LAST]
#
# rt refuses one allocation a run, by its number, and a run builds anew. So one build has a test for each number:
# the test makes so many allocations first that the one which is refused is the publisher's 1st, 2nd, 3rd ..
# up to LAST (120, if none is given). What may come out:
#     refused after N     a publishing with N entries published before; what was owed stayed owed, and went next time
#     refused elsewhere   another call, which answered so
#     none refused        there are fewer allocations
# It ends with status 1 where anything else came out.
set -eu
last=${1:-120}
top=$(cd "$(dirname "$0")/.." && pwd)
copy=$(mktemp -d)
trap 'rm -rf "$copy"' EXIT
mkdir "$copy/crates"
libraries="amt_values amt_ports source_filter endpoint_membership published_table"
for name in $libraries; do
    mkdir "$copy/crates/$name"
    for part in src specs proofs; do
        if [ -d "$top/crates/$name/$part" ]; then cp -r "$top/crates/$name/$part" "$copy/crates/$name/"; fi
    done
    grep "^$name[ :]" "$top/crates.txt" >>"$copy/crates.txt"
done
# What the test names: what published_table stands on, itself, and sources.
below=$(sed -n 's/^published_table .*: //p' "$top/crates.txt")
echo "refuse_publishing tests_may=Wait: source_filter $below published_table" >>"$copy/crates.txt"
cp "$top/HANDLES" "$copy/"
mkdir -p "$copy/crates/refuse_publishing/src"
cd "$copy/crates/refuse_publishing"
cp "$top/tools/refuse_publishing/publishing.rt.in" src/publishing.rt
printf '%s\n' '#![tactic(auto)]' '#[cfg(test)] mod publishing;' '#[cfg(test)] mod each;' >src/lib.rt
{
    cat <<'END'
use crate::publishing::publishes_all;
use std::alloc::{AllocError, Global};

fn pad(alloc: Global, count: usize) -> Result<usize, AllocError> {
    let mut kept = Vec::with_capacity(alloc, count)?;
    for number in 1..count {
        kept.push(Box::new(alloc, number)?)?;
    }
    Ok(kept.len())
}
END
    for number in $(seq "$last"); do
        cat <<END
#[test]
fn refused_$number(rt: HostRuntime) -> Result<(), AllocError> {
    let padded = pad(rt.alloc(), 1000 - $number)?;
    assert_eq!(rt; padded, 999 - $number);
    publishes_all(&rt, rt.alloc())
}
END
    done
} >src/each.rt
rt try --test --fail-alloc 1000 --seconds 600 >said 2>&1 || true
awk '
    function tell() {
        if (number == "") return
        if (refused == "") refused = ended == "ok" ? "none refused" : error ? "refused elsewhere" : "FAULT"
        else if (ended != "ok") refused = refused ", and then a FAULT"
        print number, refused
    }
    /^test / {
        tell()
        number = ended = refused = ""; error = 0
        if (sub(/^each::refused_/, "", $2)) { number = $2; ended = $4 }
    }
    /^    refused after/ { refused = $1 " " $2 " " $3 }
    /^    Error: AllocError$/ { error = 1 }
    END { tell() }
' said | sort -n >told
cat told
if [ "$(wc -l <told)" -ne "$last" ] || grep -q FAULT told; then
    cat said
    exit 1
fi
