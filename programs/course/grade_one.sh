#!/bin/bash
# Grades one submission, for grade.sh: grade_one.sh JOB, a folder that grade.sh made. What it leaves is JOB/out, which is there only
# when it is whole, or JOB/failed. It needs XV_GRADE, EXERCISE, LOCK and GRADER of grade.sh, and does nothing once that has ended.
# The status is 0 if there is a result, and else 2.
set -u
. "$(dirname "$0")/lock.sh"
# What starts it may be a shell in between, so it binds itself too.
if [ -z "${IS_BOUND-}" ] && command -v setpriv >/dev/null; then
    IS_BOUND=1 exec setpriv --pdeathsig KILL -- "$0" "$@"
fi
job=$1
has_lock || exit 2
rm -rf "$job/out" "$job/out.new" "$job/failed"
mkdir "$job/out.new" || exit 2
if ! bound "$XV_GRADE" --name "$job/name" --refused "$job/refused" --out "$job/out.new" "$EXERCISE" "$job/files" \
    </dev/null >/dev/null 2>"$job/failed"; then
    exit 2
fi
# A trace has the last events alone. Of a run that waits these show nothing, so then the picture is of its notes, which
# are the turns, calls and ends of the whole run.
traced=4096
if [ -x "${XV_PICTURE-}" ]; then
    for trace in "$job"/out.new/trace-*; do
        [ -f "$trace" ] || continue
        drawn=$trace
        notes=${trace/trace-/notes-}
        [ "$(wc -l <"$trace")" -lt "$traced" ] || [ "$(wc -l <"$notes")" -gt "$traced" ] || drawn=$notes
        bound "$XV_PICTURE" <"$drawn" >"${trace/trace-/picture-}.svg"
    done
fi
{ has_lock && cp "$job/stamp" "$job/out.new/stamp" && mv "$job/out.new" "$job/out" && rm -f "$job/failed"; } 2>>"$job/failed"
