#!/bin/sh
# Lua in the shell: programs/examples/lua/run.sh. It fetches and builds Lua, and runs a pipeline in which it is one
# program of three. What is needed: programs/c/guests.sh.
set -eu
cd "$(dirname "$0")"
top=../../..
bin=$top/programs/bin
$top/programs/c/guests.sh lua >/dev/null
room=$(mktemp -d)
trap 'rm -rf "$room"' EXIT
echo 'lua primes.lua 60 | sort | head -5' >"$room/rc"
"${XV_RUN:-$top/xv}" --quantum 100000 $bin/init $bin/sh $bin/sort $bin/head "${GUESTS:-/tmp/xv-guests}/bin/lua" \
    primes.lua "$room/rc" </dev/null
