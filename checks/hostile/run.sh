#!/bin/bash
# Refuses what the host gives: checks/hostile/run.sh, or checks/hostile/run.sh CRATE.. for the test of a crate; see README.md.
here=$(cd "$(dirname "$0")" && pwd)
. "$here/../programs.sh"
program="$here/../../crates/xv_run/out/xv_run"
[ $# -gt 0 ] || needs_program "$program"
exec python3 -B "$here/run.py" "$program" "$@"
