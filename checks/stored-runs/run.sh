#!/bin/bash
# Plays the stored runs: checks/stored-runs/run.sh [--store]; see README.md.
here=$(cd "$(dirname "$0")" && pwd)
. "$here/../programs.sh"
program=$(program_path "$here/../.." xv_run)
case "$*" in
'' | --store) ;;
*)
    echo "usage: checks/stored-runs/run.sh [--store]" >&2
    exit 2
    ;;
esac
needs_program "$program"
exec python3 -B "$here/run.py" "$@" "$program"
