#!/bin/bash
# Tries edits that turn a function's body, or with --definitions a definition; see README.md:
# checks/wrong-bodies/run.sh [--must-fail | --definitions] [NAME..]
here=$(dirname "$0")
if [ "${1-}" = --definitions ]; then
    shift
    exec python3 -B "$here/try_definitions.py" "$@"
fi
exec python3 -B "$here/try_edits.py" "$@"
