#!/bin/bash
# Grades made-up submissions, and compares what comes out with what is stored: checks/grading/run.sh [PROGRAM] grades the quick
# ones, two or three of each kind, in some seconds; checks/grading/run.sh --all [PROGRAM] all 210 of them, twice, in two orders, on
# one process and on four, with a kill and a second start in between; checks/grading/run.sh --many [PROGRAM] a thousand, made of these
# under other names, by GNU parallel on two processes; checks/grading/run.sh --store [PROGRAM] stores anew.
# Before that it grades the answers of the course's exercises (answers/EXERCISE/NAME): right ones in several variants, wrong ones, and
# fakes, which are worth no more than what they do; and folders.sh tries folders, words and exercise files.
# PROGRAM is xv_grade, under that name, and without it the one that stands in this repository. With XV_NODE=yes it is
# anywhere/grade.mjs in place of programs/course/grade.sh: --many is done by two of its workers, and some jobs fail by a trap or by
# the death of their worker. The status is 0 if all is as stored.
set -u
export LC_ALL=C
shopt -s dotglob nullglob
cd "$(dirname "$0")/../.." || exit 2
top=$PWD
here=$top/checks/grading
mode=quick
case ${1-} in --all | --many | --store) mode=${1#--} && shift ;; esac
. "$top/checks/programs.sh"
grader=("$top/programs/course/grade.sh")
[ "${XV_NODE-}" != yes ] || grader=(node "$top/anywhere/grade.mjs")
XV_GRADE=${1-$(program_path "$top" xv_grade)}
needs_program "$XV_GRADE"
XV_GRADE=$(realpath -s "$XV_GRADE")
export XV_GRADE
# Pictures are not compared, and so none are drawn.
export XV_PICTURE=${XV_PICTURE-}
room=$(mktemp -d) || exit 2
trap 'rm -rf "$room"' EXIT
failed=0

# Compares a result with the stored one of this name, or stores it.
compare() {
    if [ "$mode" = store ]; then
        cp "$1" "$here/stored/$2"
    elif ! cmp -s "$1" "$here/stored/$2"; then
        failed=$((failed + 1))
        echo "grading: $2 differs:" >&2
        diff -a "$here/stored/$2" "$1" | head -20 >&2
    fi
}

# Grades submissions for exercise 4: NAME of the work's folder, then words of grade.sh and submissions.
grade() {
    local work=$1
    shift
    "${grader[@]}" --work "$room/$work" "$@"
}

[ "$mode" != store ] || mkdir -p "$here/stored"

# The right and wrong answers of each exercise, which stand here.
for folder in "$here"/answers/*/; do
    exercise=$(basename "$folder")
    grade "answers-$exercise" "$top/programs/course/exercises/$exercise.toml" "$folder"* >"$room/$exercise.csv" 2>"$room/errors" ||
        { failed=$((failed + 1)); cat "$room/errors" >&2; }
    compare "$room/$exercise.csv" "$exercise.csv"
done

# A name that begins with `right` has all points, a fake a fifth at most.
python3 -B "$here/marks.py" || failed=$((failed + 1))

"$here/folders.sh" "${grader[@]}" || failed=$((failed + 1))

"$here/submissions.sh" "$room/made" || exit 2
# A run of 20,000 events shows as well as one of a million that a submission loops.
exercise=$room/4-hang.toml
sed 's/^quantum = 500$/&\nmost_runs = 20000/' "$top/programs/course/exercises/4-hang.toml" >"$exercise"
grep -q '^most_runs = 20000$' "$exercise" || exit 2
if [ "$mode" = quick ]; then
    cd "$room/made/all" || exit 2
    for it in *-0[2-9] *-1? wrong-*-[1-9]; do rm -rf "./$it"; done
    cd "$top" || exit 2
    grade quick "$exercise" "$room"/made/all/* >"$room/quick.csv" 2>"$room/errors" || { failed=$((failed + 1)); cat "$room/errors" >&2; }
    # Of the stored results of all, those of these submissions.
    python3 - "$here/stored/all.csv" "$room/quick.csv" <<'END' || failed=$((failed + 1))
import csv, sys
read = lambda name: list(csv.reader(open(name, encoding="utf-8", errors="surrogateescape", newline="")))
stored = {row[0]: row for row in read(sys.argv[1])}
made = read(sys.argv[2])
wrong = [row for row in made if stored.get(row[0]) != row]
for row in wrong[:10]:
    print("grading: differs:", ascii(row), "stored:", ascii(stored.get(row[0])), file=sys.stderr)
sys.exit(1 if wrong or len(made) < 60 else 0)
END
elif [ "$mode" = many ]; then
    [ "${XV_NODE-}" = yes ] || command -v parallel >/dev/null || { echo 'grading: there is no GNU parallel' >&2; exit 2; }
    python3 - "$room/made/all" "$room/many" "$here/stored/all.csv" "$room/wanted.csv" <<'END' || exit 2
import csv, os, subprocess, sys
made, many, stored, wanted = (os.fsencode(it) for it in sys.argv[1:])
os.mkdir(many)
rows = {row[0]: row for row in csv.reader(open(stored, encoding="utf-8", errors="surrogateescape", newline=""))}
names = sorted(os.listdir(made))
out = csv.writer(open(wanted, "w", encoding="utf-8", errors="surrogateescape", newline=""), lineterminator="\n")
out.writerow(["submission", "points", "of", "status", "reason"])
for k in range(1000):
    name = names[k % len(names)]
    new = b"%04d %s" % (k, name)
    subprocess.run([b"cp", b"-al", b"--", made + b"/" + name, many + b"/" + new], check=True)
    row = rows[os.fsdecode(name)]
    out.writerow([os.fsdecode(new)] + row[1:])
END
    grade many --jobs 2 "$exercise" "$room"/many/* >"$room/many.csv" 2>"$room/errors" || { failed=$((failed + 1)); cat "$room/errors" >&2; }
    python3 - "$room/wanted.csv" "$room/many.csv" <<'END' || failed=$((failed + 1))
import csv, sys
wanted, made = (sorted(csv.reader(open(it, encoding="utf-8", errors="surrogateescape", newline=""))) for it in sys.argv[1:])
wrong = [pair for pair in zip(wanted, made) if pair[0] != pair[1]]
for row, got in wrong[:10]:
    print("grading: differs:", ascii(got), "wanted:", ascii(row), file=sys.stderr)
print("grading:", len(made) - 1, "submissions by two processes or workers")
sys.exit(1 if wrong or len(made) != 1001 or len(wanted) != 1001 else 0)
END
else
    grade first --jobs 4 "$exercise" "$room"/made/all/* >"$room/all.csv" 2>"$room/errors" || { failed=$((failed + 1)); cat "$room/errors" >&2; }
    compare "$room/all.csv" all.csv
    cp "$room/first/results.xml" "$room/all.xml"
    compare "$room/all.xml" all.xml
    # The other way round, on one process, killed on the way, and started again.
    reversed=()
    for it in "$room"/made/all/*; do reversed=("$it" "${reversed[@]}"); done
    setsid "${grader[@]}" --work "$room/second" --jobs 1 "$exercise" "${reversed[@]}" >"$room/killed.csv" 2>/dev/null &
    killed=$!
    for ((k = 0; k < ${PATIENCE-300} * 10; k++)); do
        [ "$(find "$room/second/jobs" -path '*/out/result.csv' 2>/dev/null | wc -l)" -lt 40 ] || break
        sleep 0.1
    done
    kill -9 -- "-$killed" 2>/dev/null
    wait "$killed" 2>/dev/null
    before=$(find "$room/second/jobs" -path '*/out/result.csv' | wc -l)
    grade second --resume --jobs 1 "$exercise" "${reversed[@]}" >"$room/again.csv" 2>"$room/errors" || { failed=$((failed + 1)); cat "$room/errors" >&2; }
    compare "$room/again.csv" all.csv
    echo "grading: killed after $before of ${#reversed[@]} results, and started again"
fi

# A job that fails by a trap, or by the death of its worker, is told so, and the next ones are done.
if [ "${XV_NODE-}" = yes ]; then
    node "$top/anywhere/try/grading.mjs" "$room/failing" || failed=$((failed + 1))
fi

# No submission has run on the host, and nothing of the host's is in a result.
[ -z "$(find "$room" "$top/programs/course" -name owned)" ] || { failed=$((failed + 1)); echo 'grading: something was run on the host' >&2; }
if grep -raq 'root:x:0' "$room" --include='console-*' --include='result*' --include='notes-*'; then
    failed=$((failed + 1))
    echo 'grading: a file of the host stands in a result' >&2
fi
if [ "$failed" = 0 ]; then
    echo 'grading: all results are as stored'
else
    echo "grading: $failed differ"
    exit 1
fi
