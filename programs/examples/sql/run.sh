#!/bin/sh
# SQL on a table that is handed in: programs/examples/sql/run.sh. It fetches and builds SQLite, reads school.csv, and
# answers what questions.sql asks. What is needed: programs/c/guests.sh.
set -eu
cd "$(dirname "$0")"
top=../../..
bin=$top/programs/bin
$top/programs/c/guests.sh sqlite >/dev/null
room=$(mktemp -d)
trap 'rm -rf "$room"' EXIT
echo 'sqlite3 < questions.sql' >"$room/rc"
"${XV_RUN:-$top/xv}" --quantum 100000 $bin/init $bin/sh "${GUESTS:-/tmp/xv-guests}/bin/sqlite3" school.csv questions.sql \
    "$room/rc" </dev/null
