#!/bin/sh
# Plays the sessions of this folder by the built program xv_terminal, without a terminal, and compares what comes out:
# checks/terminal/run.sh, or checks/terminal/run.sh NAME.. for some of them. A line for each that differs, and a verdict
# at the end; the status is 0 if all are as they should be. XV_TERMINAL is the program, and without it the one that
# stands in this repository, or by XV_NODE=yes the one by Node. As many are played at once as there are processors.
#
# A session is a text. Its first line says what it shows; then come parts, each with a line `== NAME` at its head:
#
#   == words      the words of the command line; a FILE is one of the session's own, or a program of programs/bin, or
#                 another file of programs/
#   == file NAME  a file of the session
#   == keys       what is typed: each line and its end; ^D is the byte 4 and so on, ^? is 127. The clock stands still
#   == record     a record that is played, in place of keys: the clock ticks as it did
#   == shows      what standard output must have, as `cat -v` writes it
#   == errors     what standard error must have, as `cat -v` writes it; without this part it isn't looked at
#   == status     the exit status that is wanted; without this part 0
#   == again      what standard output must have if the record of the session is played, as `cat -v` writes it; without this
#                 part the same bytes as in the session
#   == beside     what standard error must have if the record is played without --apart, so that notes are made as on a
#                 terminal that shows both, as `cat -v` writes it; without this part it isn't played so
#
# The last line of keys and of what is shown ends in \c if no line's end follows. A session with keys is recorded,
# and its record is played.
set -u
here=$(cd "$(dirname "$0")" && pwd) || exit 2
top=$here/../..
. "$top/checks/programs.sh"
. "$top/checks/parts.sh"
# What the words of a session name.
# shellcheck disable=SC2034
programs=$top/programs
program=${1-}
case $program in
*/*) shift ;;
*)
    program=${XV_TERMINAL-$(program_path "$top" xv_terminal)}
    ;;
esac
needs_program "$program"
program=$(realpath -s "$program")
room=$(mktemp -d) || exit 2
trap 'rm -rf "$room"' EXIT

# Compares a part with what came out, as `cat -v` writes it.
is_part() {
    [ -e "$room/=$1" ] || return 0
    lines "$room/=$1" >"$room/=wanted"
    cat -v "$2" >"$room/=came"
    cmp -s "$room/=wanted" "$room/=came" || {
        echo "$name: $1 differs: wanted < and came >"
        diff "$room/=wanted" "$room/=came" | head -20
        return 1
    }
}

# Plays the record $1 beside a screen, and compares its notes. The words of a session are several.
# shellcheck disable=SC2046
beside() {
    [ -e "$room/=beside" ] || return 0
    "$program" --replay "$1" $(words) </dev/null >/dev/null 2>"$room/=notes"
    status=$?
    [ "$status" = "$wanted" ] || { echo "$name: played beside a screen its status is $status"; return 1; }
    is_part beside "$room/=notes"
}

# Plays session $1, a name or a path.
# shellcheck disable=SC2046
check() {
    case $1 in */*) ;; *) set -- "$here/$1.txt" ;; esac
    name=${1##*/}
    name=${name%.txt}
    take_apart "$1" || return 1
    wanted=$(cat "$room/=status" 2>/dev/null || echo 0)
    record=$room/=record
    if [ -e "$record" ]; then
        "$program" --apart --replay "$record" $(words) </dev/null >"$room/=out" 2>"$room/=err"
    else
        record=$room/=new
        keys | "$program" --apart --tick 60000 --record "$record" $(words) >"$room/=out" 2>"$room/=err"
    fi
    status=$?
    [ "$status" = "$wanted" ] || { echo "$name: status $status, and $wanted is wanted"; return 1; }
    is_part shows "$room/=out" || return 1
    is_part errors "$room/=err" || return 1
    if [ -e "$room/=new" ]; then
        "$program" --apart --replay "$record" $(words) </dev/null >"$room/=played" 2>/dev/null
        status=$?
        [ "$status" = "$wanted" ] || { echo "$name: played again its status is $status"; return 1; }
        if [ -e "$room/=again" ]; then
            is_part again "$room/=played" || return 1
        else
            cmp -s "$room/=out" "$room/=played" || { echo "$name: played again it shows other bytes"; return 1; }
        fi
    fi
    beside "$record"
}

[ $# -gt 0 ] || set -- "$here"/*.txt
side_by_side check "$@"
echo "checks/terminal: $# sessions, $failed of them differ"
[ "$failed" = 0 ]
