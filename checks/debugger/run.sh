#!/bin/sh
# Plays sessions of the debugger's words, and compares what it answers with what is stored: NAME.words goes to its standard
# input, NAME.args has its command line, and NAME.out is what comes out, with its status.
#
#   checks/debugger/run.sh [PROGRAM [--store]]
#
# PROGRAM is the debugger under its name, xv_debugger: without it, the one that is proved and built, or by XV_NODE=yes the
# one that `node xv.mjs --debug` starts. --store writes the outputs anew: look at each line that changes.
#
# data/letters has a program in C, and its names and lines as programs/c/build.sh leaves them (with CFLAGS='-g1', and prefix
# maps, so that no path of a host is in them).
set -u
cd "$(dirname "$0")/../.." || exit 2
. checks/programs.sh
XV_DEBUGGER=$(realpath -s -- "${1-$(program_path . xv_debugger)}")
export XV_DEBUGGER
needs_program "$XV_DEBUGGER"

debug() {
    if [ "${XV_NODE-}" = yes ]; then
        node xv.mjs --debug "$@"
    else
        XV_AS_BUILT=yes ./xv --debug "$@"
    fi
}

scratch=$(mktemp -d) || exit 2
trap 'rm -rf "$scratch"' EXIT
count=0
others=0
for words in checks/debugger/*.words; do
    name=${words%.words}
    # The words of the file are the program's.
    # shellcheck disable=SC2046
    debug $(cat "$name.args") <"$words" >"$scratch/out" 2>&1
    echo "status $?" >>"$scratch/out"
    count=$((count + 1))
    if [ "${2-}" = --store ]; then
        cp "$scratch/out" "$name.out" || exit 2
    elif ! cmp -s "$name.out" "$scratch/out"; then
        echo "${name##*/} is another:"
        diff "$name.out" "$scratch/out"
        others=$((others + 1))
    fi
done
[ "$others" = 0 ] && echo "all $count sessions of the debugger are as they should be" && exit 0
echo "$others of $count sessions of the debugger are others"
exit 1
