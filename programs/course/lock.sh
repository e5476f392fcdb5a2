# Sourced by grade.sh and grade_one.sh: one grader at a time works in a folder, and what it starts ends with it.
#
#   take_lock FILE PROGRAM EXERCISE   takes the lock, or ends the script with status 2 and tells who has it. LOCK and GRADER say to
#                                     what the script starts which lock that is, and whose
#   has_lock                          whether the grader that started this still has the lock, and goes on if it is on this host
#   bound COMMAND..                   runs a command that ends when this shell does, even by kill -9 (setpriv, of util-linux)
#
# The lock is a file of two lines: the program, its process, when that began (field 22 of /proc/PID/stat) and the host; and the
# exercise. It comes by a hard link, so it is never there without its text. anywhere/src/grading/lock.mjs keeps to the same.
# shellcheck shell=bash

# When a process began; empty if there is none.
began() {
    local stat
    { read -r stat <"/proc/$1/stat"; } 2>/dev/null || return 0
    # Behind the name, which stands in brackets and may have blanks, come the fields from the third on.
    read -ra stat <<<"${stat##*) }"
    printf '%s' "${stat[19]}"
}

# Whether the grader of a lock's first line goes on; of one on another host nobody here can tell.
goes_on() {
    local process start host
    read -r _ process start host <<<"$1"
    [ "$host" != "$(uname -n)" ] || { [ -n "$start" ] && [ "$(began "$process")" = "$start" ]; }
}

refuse_lock() {
    local holder exercise program process host
    { IFS= read -r holder && IFS= read -r exercise; } <"$LOCK" || holder='another grader'
    read -r program process _ host <<<"$holder"
    printf 'grade.sh: %s is in use: %s, process %s on %s, grades %s there\n' "${LOCK%/lock}" "$program" "${process:-?}" "${host:-?}" "${exercise:-?}" >&2
    printf 'grade.sh: take another folder by --work, or wait for its end. If it has ended on that host, remove %s\n' "$LOCK" >&2
    exit 2
}

# Takes the place of a grader that has ended and left its lock. Of two that try it at once one at most does.
take_over() {
    (set -C && : >"$LOCK.taking") 2>/dev/null || refuse_lock
    if [ "$(head -n 1 "$LOCK" 2>/dev/null)" = "$1" ]; then
        mv -f "$LOCK.$$" "$LOCK"
    fi
    rm -f "$LOCK.taking"
}

take_lock() {
    local held
    export LOCK=$1 GRADER
    GRADER="$2 $$ $(began $$) $(uname -n)"
    printf '%s\n%s\n' "$GRADER" "$3" >"$LOCK.$$" || exit 2
    if ! ln "$LOCK.$$" "$LOCK" 2>/dev/null; then
        held=$(head -n 1 "$LOCK" 2>/dev/null)
        if [ -n "$held" ] && ! goes_on "$held"; then
            take_over "$held"
        fi
    fi
    rm -f "$LOCK.$$"
    has_lock || refuse_lock
    trap 'has_lock && rm -f "$LOCK"' EXIT
}

has_lock() {
    [ "$(head -n 1 "$LOCK" 2>/dev/null)" = "$GRADER" ] && goes_on "$GRADER"
}

bound() {
    if command -v setpriv >/dev/null; then
        setpriv --pdeathsig KILL -- "$@"
    else
        "$@"
    fi
}
