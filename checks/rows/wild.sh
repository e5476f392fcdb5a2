#!/bin/bash
# Random words in rows and by single events, with the stored seed, in some seconds: checks/rows/wild.sh [--many N] [--seed N]
# [--case N [--keep FOLDER]]; see README.md. By Node there are fewer cases.
[ "${XV_NODE-}" != yes ] || set -- --many 2 "$@"
exec "$(dirname "$0")/run.sh" --wild "$@"
