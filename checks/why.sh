#!/bin/bash
# Why a crate isn't proved: checks/why.sh CRATE checks it, and tells what is open in the order in which to read it: worked
# cases first, which compute what a definition says; then what functions promise; then the lemmas that don't fit any more.
# checks/why.sh CRATE FILE reads what `rt check --allow-holes` wrote into a file.
exec python3 -B "$(dirname "$0")/why.py" "$@"
