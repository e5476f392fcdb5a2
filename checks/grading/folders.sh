#!/bin/bash
# Tries what graders do with their folders, words and exercise files: checks/grading/folders.sh GRADER.., a command that grades as
# programs/course/grade.sh does; it takes XV_GRADE as run.sh does. Two graders in one folder, two exercises in one folder, a grader
# that is killed, a host that can't read or write, words that are refused, and exercises (refused/*.toml) that nobody or everybody
# would pass. What needs a small disk is tried only by root, who can mount one. The status is 0 if all is as it should be.
set -u
export LC_ALL=C
cd "$(dirname "$0")/../.." || exit 2
top=$PWD
here=$top/checks/grading
room=$(mktemp -d) || exit 2
trap 'umount "$room/disk" 2>/dev/null; rm -rf "$room"' EXIT
failed=0
export XV_PICTURE=

miss() {
    failed=$((failed + 1))
    printf 'grading: %s\n' "$1" >&2
    [ ! -s "${2-}" ] || head -n 5 "$2" >&2
}

# Expects a status and a text in what a command says: WHAT STATUS TEXT COMMAND..
says() {
    local what=$1 status=$2 text=$3 got
    shift 3
    "$@" >"$room/output" 2>"$room/errors"
    got=$?
    [ "$got" = "$status" ] || miss "$what: status $got, and not $status" "$room/errors"
    grep -qF -- "$text" "$room/errors" "$room/output" || miss "$what: it doesn't say: $text" "$room/errors"
}

class=$top/programs/course/grading/submissions
children=$top/programs/course/grading/children.toml
chain=$top/programs/course/exercises/3-chain.toml

# ---- two exercises in one folder, one after the other, and both again
"$@" --work "$room/one" "$children" "$class"/* >"$room/children.csv" 2>/dev/null
"$@" --work "$room/two" "$chain" "$class"/* >"$room/chain.csv" 2>/dev/null
cmp -s "$room/children.csv" "$room/chain.csv" && miss 'two exercises have one result'
for exercise in children chain children chain; do
    path=$children
    [ "$exercise" = children ] || path=$chain
    "$@" --work "$room/both" --resume "$path" "$class"/* >"$room/again.csv" 2>"$room/errors"
    cmp -s "$room/again.csv" "$room/$exercise.csv" || miss "in a folder of two exercises $exercise has another result" "$room/errors"
done

# ---- a result that isn't the submission's own
result=$(grep -l '^anna,' "$room"/one/jobs/*/out/result.csv)
printf 'other\n' >"${result%/out/result.csv}/out/stamp"
"$@" --work "$room/one" --resume "$children" "$class"/* 2>/dev/null | cmp -s - "$room/children.csv" || miss 'a result of another stamp is not made anew'

# ---- a second grader in one folder, and a grader that is killed
mkdir -p "$room/slow/loops" "$room/slow/loops-too"
printf 'again: j again\n' | tee "$room/slow/loops/init.s" >"$room/slow/loops-too/init.s"
sed 's/^name = "the program"$/&\nmost_runs = 1_000_000_000/' "$children" >"$room/slow.toml"
"$@" --work "$room/work" --jobs 1 "$room/slow.toml" "$room"/slow/* >/dev/null 2>&1 &
first=$!
for ((k = 0; k < 300; k++)); do
    ! compgen -G "$room/work/jobs/*/stamp" >/dev/null || break
    sleep 0.1
done
sleep 1
says 'a second grader in one folder' 2 'is in use: grade.' "$@" --work "$room/work" "$children" "$class"/*
grep -q "process $first on" "$room/errors" || miss 'the first grader is not named' "$room/errors"
kill -9 "$first" 2>/dev/null
wait "$first" 2>/dev/null
sleep 1.5
left=$(pgrep -f -- "$room/work" | tr '\n' ' ')
[ -z "$left" ] || miss "a killed grader leaves processes that go on: $left"
says 'a grader after one that was killed' 0 'anna,6,6,right,' "$@" --work "$room/work" --resume "$children" "$class"/*
[ ! -e "$room/work/lock" ] || miss 'a lock is left behind'

# ---- a host that can't read or write: no mark, and a status that says so
cp "$top/programs/course/hang/init.s" "$room/init.s"
cat >"$room/mem.toml" <<'END'
title = "a file that can't be read"
files = ["mem"]

[[run]]
name = "a program beside it"
with = ["init.s"]

[[run.rule]]
name = "init exits"
status = 0
END
sleep 100 &
unread=$!
says 'a file that the host cannot read' 2 "$unread,,,not graded,mem: Input/output error" "$@" --work "$room/read" "$room/mem.toml" "/proc/$unread"
kill "$unread" 2>/dev/null
mkdir -p "$room/disk" "$room/big/anna" "$room/big/large"
cp "$class/anna/init.s" "$room/big/anna/"
{ cat "$class/anna/init.s" && head -c 900000 /dev/zero | tr '\0' '\n'; } >"$room/big/large/init.s"
if mount -t tmpfs -o size=800k none "$room/disk" 2>/dev/null; then
    says 'a disk that is full' 2 'large,,,not graded' "$@" --work "$room/disk/work" "$children" "$room"/big/*
    grep -qx 'anna,6,6,right,' "$room/output" || miss 'a disk that is full: another submission is not graded' "$room/output"
    mount -o remount,size=8m "$room/disk"
    says 'a disk that has room again' 0 'large,6,6,right,' "$@" --work "$room/disk/work" --resume "$children" "$room"/big/*
    umount "$room/disk"
else
    echo 'grading: no disk can be mounted here, so none that is full was tried' >&2
fi

# ---- words
says 'a pattern without a match' 1 'there is no submission' "$@" --work "$room/w" "$children" "$room/nowhere/*"
says '--jobs without a number' 1 '--jobs takes' "$@" --jobs
says '--jobs with a word' 1 '--jobs takes a number from 1 on' "$@" --jobs four "$children" "$class"/anna
says '--jobs 0' 1 '--jobs takes a number from 1 on' "$@" --jobs 0 "$children" "$class"/anna
(cd "$room" && "$@" "$children" "$class"/anna >/dev/null 2>&1 && [ -s grade-work/children/results.csv ]) || miss 'the usual folder has not the name of the exercise'

# ---- exercises that nobody or everybody would pass
for file in "$here"/refused/*.toml; do
    says "${file##*/}" 2 "$(sed -n '1s/^# refused: //p' "$file")" "$XV_GRADE" "$file"
done

[ "$failed" = 0 ] || { echo "grading: $failed of the tries with folders, words and exercise files went wrong" && exit 1; }
echo 'grading: folders, words and exercise files are treated as they should be'
