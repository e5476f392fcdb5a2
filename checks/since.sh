#!/bin/bash
# A verdict in minutes over what a gate left: proves the crates that differ from a revision, and those above that their
# interfaces reach, tries the edits of the functions that changed, runs tests, and does the quick checks.
#
#   checks/since.sh [REV]              from REV; without it, from where this branch left origin's
#   checks/since.sh --base FOLDER ..   takes libraries that lack here from another clone, in which the gate has passed REV; that
#                                      is remembered, and --base . forgets it
#   checks/since.sh --trust ..         takes libraries as REV's whose times don't say so, if their definitions and proofs are REV's
#   checks/since.sh --alone ..         proves what differs, and leaves the crates above to the gate
#   checks/since.sh --no-edits ..      tries no edits; --no-tests runs no tests; --proofs does neither, nor quick checks
#   checks/since.sh --try-tests ..     runs the tests over code that changed (layer_tests, machine_tests) without proofs: minutes
#   checks/since.sh --definitions ..   also turns the definitions of the files of specs/ that differ, minutes each
#   checks/since.sh --prepare [CRATE..]  fills what checks of these crates begin with (without names, of all): best done while
#                                      nothing is changed, since the first check of a crate is from nothing
#
# It needs the Rattle kit (`rt` on the PATH), Python 3 and git, and libraries to begin with: .ci/run, `./xv --build` or
# `rt ci`, run once in this clone or in that of --base, leave them. It changes no file but in crates/*/out. Ctrl-C stops it,
# and the next call goes on. The last line says what was done. The status is 0 if all is well, 1 if something is not proved, not
# refused or fails, and 2 if it couldn't begin. It isn't the gate: it says what it took from before, and what it left.
exec python3 -B "$(dirname "$(readlink -f -- "$0")")/since.py" "$@"
