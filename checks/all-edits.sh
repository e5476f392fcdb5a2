#!/bin/bash
# Tries every edit of bodies, those of crates/*/must-fail and of checks/wrong-bodies: the prover has to refuse each at what its
# function ensures. A release runs it.
#
#   checks/all-edits.sh [CRATE..]      of all crates, or of these; what was refused of the same sources isn't tried again
#   checks/all-edits.sh --anew ..      all of them again
#   checks/all-edits.sh --gate ..      those of checks/wrong-bodies/gate.txt, from nothing: the gate does so, once its proofs stand. What
#                                      was refused on this host, over the same sources and libraries, isn't tried again
#   checks/all-edits.sh --definitions ..  turned definitions too, half a minute to ten each (checks/wrong-bodies/README.md)
#   checks/all-edits.sh --base FOLDER ..  takes libraries that lack here from another clone, in which the gate has passed
#
# It works over the libraries that .ci/run, `./xv --build` or checks/since.sh left, in batches, crates side by side, as many as
# programs/host/jobs.sh says. It needs the Rattle kit, Python 3 and git. It changes no file but in crates/*/out. Ctrl-C stops it, and
# the next call goes on. The last lines are a table: for each crate how many edits there are, how many are refused, refused
# for their form alone, and not refused, and the minutes. The status is 0 if all are refused, 1 if not, and 2 if it couldn't begin.
exec python3 -B "$(dirname "$(readlink -f -- "$0")")/all_edits.py" "$@"
