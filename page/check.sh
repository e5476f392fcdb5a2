#!/bin/bash
# check.sh [PAGE.html]: looks whether what runs a machine stands alone (anywhere/machine), and whether records that are
# whole, cut off or damaged are read as xv_terminal reads them, and stand at an event as in every other tool; plays the
# stored runs and the sessions of the repository by the module of the page, in Node, and compares; then goes to and fro in
# a run and compares with the proved `back_to`, makes a long record again, brings back runs that keys have cut off, tries
# what keys do to a source, and what is written in the place of words of another assembler, gives the module bad input,
# looks back in a run for stores and stops, and compares the reports of faults and sleepers with those of xv_why, and the
# module's SHA-256 with Node's.
# It needs node (Debian's nodejs) and python3. The status is 1 if something differs.
set -euo pipefail
cd "$(dirname "$(readlink -f "$0")")"
command -v node >/dev/null || { echo "check.sh: there is no node: apt-get install nodejs" >&2; exit 1; }
page=$(readlink -f "${1-nektavoly.html}")
work=$(mktemp -d) && trap 'rm -rf "$work"' EXIT
python3 -B build/module_of.py "$page" "$work/page.wasm"
cat >"$work/xv_run" <<END
#!/bin/sh
XV_MODULE=$work/page.wasm exec node $PWD/try/xv_run.mjs "\$@"
END
chmod +x "$work/xv_run"
failed=
node ../anywhere/try/machine_room.mjs || failed=1
node try/records.mjs || failed=1
node try/replayed.mjs "$work/page.wasm" ../programs/bin || failed=1
node try/sums.mjs "$work/page.wasm" || failed=1
node try/source_edits.mjs || failed=1
node try/written.mjs "$work/page.wasm" || failed=1
# By Node, on a host with other work, a session or a run may take long: it gets ten minutes.
export PATIENCE=600
XV_RUN=$work/xv_run ../checks/sessions/run.sh | grep -v '^ok ' || failed=1
python3 -B ../checks/stored-runs/run.py "$work/xv_run" | tail -1 || failed=1
node try/back.mjs "$work/page.wasm" ../programs/bin || failed=1
node try/again.mjs "$work/page.wasm" ../programs/bin || failed=1
node try/futures.mjs "$work/page.wasm" ../programs/bin || failed=1
node try/bad.mjs "$work/page.wasm" ../programs/bin || failed=1
node try/seek.mjs "$work/page.wasm" ../programs/bin || failed=1
node try/why.mjs "$work/page.wasm" ../programs/bin ../checks/why || failed=1
[ -z "$failed" ]
