#!/bin/sh
# Proves and links a program of the repository, and leaves it as crates/NAME/out/NAME: tools/build.sh NAME
set -eu
[ "$#" = 1 ] || { echo 'usage: tools/build.sh NAME' >&2; exit 2; }
cd "$(dirname "$0")/../crates/$1"
log=$(mktemp)
trap 'rm -f "$log"' EXIT
rm -f "out/$1"
# `rt run` runs what it has linked, here where no input lies: how that run ends does not matter.
rt run > "$log" 2>&1 < /dev/null || true
if [ ! -x "out/$1" ]; then
    tail -30 "$log" >&2
    exit 1
fi
