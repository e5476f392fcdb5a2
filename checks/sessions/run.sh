#!/bin/sh
# Plays the sessions of this folder by the built program, and compares what comes out: checks/sessions/run.sh, or
# checks/sessions/run.sh NAME.. for some of them. A line for each, and a verdict at the end; the status is 0 if all are as
# they should be. XV_RUN is the program, and without it the one that stands in this repository, or by XV_NODE=yes the one
# by Node. As many are played at once as there are processors. A session may take 60 seconds, or as many as PATIENCE says.
#
# A session is a text. Its first line says what it shows; then come parts, each with a line `== NAME` at its head:
#
#   == words           the words of the command line; a FILE is one of the session's own, or a program of
#                      programs/bin, or another file of programs/
#   == file NAME       a file of the session
#   == keys            what is typed: each line and its end; ^D is the byte 4 and so on; <30> lets 30 rounds pass
#   == shows           what the console must show, as `cat -v` writes it
#   == status          the exit status that is wanted; without this part 0
#   == errors          what standard error must have; without this part it isn't looked at
#   == trace PATTERN   the lines of standard error that fit the pattern (of grep -E)
#
# The last line of keys and of what is shown ends in \c if no line's end follows.
set -u
top=$(dirname "$0")/../..
. "$top/checks/programs.sh"
. "$top/checks/parts.sh"
program=$(readlink -f "${XV_RUN-$(program_path "$top" xv_run)}")
needs_program "$program"
cd "$(dirname "$0")" || exit 2
programs=$(cd ../../programs && pwd) || exit 2
room=$(mktemp -d) || exit 2
trap 'rm -rf "$room"' EXIT
patience=${PATIENCE-60}

# Compares part $1 with the file $2, and shows where they differ.
is_wanted() {
    lines "$room/=$1" >"$room/=wanted"
    cmp -s "$room/=wanted" "$2" && return
    echo "FAILED $name: $1 (< is wanted, > came)"
    diff "$room/=wanted" "$2" | sed 's/^/    /'
    return 1
}

play() {
    take_apart "$1" || return
    keys >"$room/=typed"
    # shellcheck disable=SC2046
    timeout "$patience" "$program" $(words) <"$room/=typed" >"$room/=out" 2>"$room/=err"
    echo $? >"$room/=ended"
    [ "$(cat "$room/=ended")" != 124 ] || echo "FAILED $name: it took longer than $patience seconds, on a busy host perhaps"
    [ -e "$room/=status" ] || echo 0 >"$room/=status"
    cat -v "$room/=out" >"$room/=seen"
    [ ! -e "$room/=trace" ] || grep -E -- "$(cat "$room/=pattern")" "$room/=err" >"$room/=noted"
    well=0
    is_wanted shows "$room/=seen" || well=1
    is_wanted status "$room/=ended" || well=1
    [ ! -e "$room/=errors" ] || is_wanted errors "$room/=err" || well=1
    [ ! -e "$room/=trace" ] || is_wanted trace "$room/=noted" || well=1
    return $well
}

# Plays the session of this name, and tells how it went.
try_session() {
    name=$1
    play "$name.txt" && echo "ok     $name"
}

# shellcheck disable=SC2012,SC2046
[ $# -gt 0 ] || set -- $(ls ./*.txt | sed 's/^\.\///; s/\.txt$//')
side_by_side try_session "$@"
if [ "$failed" = 0 ]; then
    echo "$# sessions are as they should be"
else
    echo "$failed of $# sessions are not as they should be"
    exit 1
fi
