#!/bin/bash
# Measures a program over a C library: bench/run.sh library [XV_RUN]. valgrind's callgrind counts the machine instructions for
# one instruction between 2,000 and 6,000 rounds of 1,000 Runs, in which boot cancels. It needs what programs/c/xvcc names.
set -e
here=$(cd "$(dirname "$0")" && pwd)
root=$(cd "$here/../.." && pwd)
. "$root/bench/times.sh"
xv=${1-$root/crates/xv_run/out/xv_run}
[ -x "$xv" ] || "$root/xv" --build
work=$(mktemp -d)
trap 'rm -rf "$work"' EXIT
"$root/programs/c/xvcc" -O2 "$here/texts.c" -o "$work/init"

few=$(counted "$xv" --rounds 2000 --quantum 1000 "$work/init")
many=$(counted "$xv" --rounds 6000 --quantum 1000 "$work/init")
awk -v few="$few" -v many="$many" 'BEGIN { printf "machine instructions for one: %.1f\n", (many - few) / 4e6 }'
