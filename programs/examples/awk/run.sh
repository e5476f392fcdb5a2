#!/bin/sh
# A pipeline with awk, which runs a program itself: programs/examples/awk/run.sh. It fetches and builds awk, and counts
# the words of a text. What is needed: programs/c/guests.sh.
set -eu
cd "$(dirname "$0")"
top=../../..
bin=$top/programs/bin
$top/programs/c/guests.sh awk >/dev/null
room=$(mktemp -d)
trap 'rm -rf "$room"' EXIT
echo 'cat pipes.txt | awk -f words.awk | head -5' >"$room/rc"
"${XV_RUN:-$top/xv}" --quantum 100000 $bin/init $bin/sh $bin/cat $bin/sort $bin/head "${GUESTS:-/tmp/xv-guests}/bin/awk" \
    words.awk pipes.txt "$room/rc" </dev/null
