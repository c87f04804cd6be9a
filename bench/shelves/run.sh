#!/bin/sh
# Builds the program of this folder over the crates of the repository, in a folder of its own, and runs it.
set -eu
root=$(cd "$(dirname "$0")/../.." && pwd)
work=$(mktemp -d)
trap 'rm -rf "$work"' EXIT
mkdir -p "$work/crates/shelfbench/src"
# What is proved already, in out/ folders, comes along and need not be proved again.
for crate in refusals clauses shelf store stored pool slots; do
    cp -r "$root/crates/$crate" "$work/crates/$crate"
    rm -rf "$work/crates/$crate/must-fail"
    grep "^$crate:" "$root/crates.txt" >> "$work/crates.txt"
done
echo 'shelfbench: refusals clauses shelf store stored pool slots anyhow' >> "$work/crates.txt"
cp "$root/bench/shelves/main.rt.txt" "$work/crates/shelfbench/src/main.rt"
# The first run is that of `rt run`, which proves and links the program; the second is the one that is shown.
(cd "$work/crates/shelfbench" && rt run > "$work/log" 2>&1) || true
if [ ! -x "$work/crates/shelfbench/out/shelfbench" ]; then
    tail -30 "$work/log" >&2
    exit 1
fi
"$work/crates/shelfbench/out/shelfbench"
