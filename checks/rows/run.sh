#!/bin/bash
# Compares rows of Runs with single events: checks/rows/run.sh [--many N] [--seed N] [--case N [--keep FOLDER]]; see README.md.
here=$(cd "$(dirname "$0")" && pwd)
. "$here/../programs.sh"
for name in xv_debugger xv_terminal xv_run; do
    program=$(program_path "$here/../.." "$name")
    needs_program "$program"
done
exec python3 -B "$here/run.py" "$@" "$(dirname "$program")"
