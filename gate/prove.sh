#!/bin/sh
# Proves the crates of the program, lowest layer first, and prints a line for each one with its
# seconds. At a crate that is not proved, ends with what the prover said last.
# Use: gate/prove.sh

unset CDPATH
here=$(cd "$(dirname "$0")/.." && pwd)
crates=$(sed -n 's/^\([a-z_]*\):.*/\1/p' "$here/crates.txt" | sed '/^cwtune$/q')
[ -n "$crates" ] || { echo "prove.sh: no crates in crates.txt" >&2; exit 1; }
log=$(mktemp) || exit 1
trap 'rm -f "$log"' EXIT
trap 'exit 143' HUP INT TERM
for crate in $crates; do
    printf '%-14s ' "$crate"
    start=$(date +%s)
    if ! (cd "$here/crates/$crate" && rt check) >"$log" 2>&1; then
        echo "not proved"
        tail -n 20 "$log" >&2
        exit 1
    fi
    echo "proved in $(($(date +%s) - start)) s"
done
