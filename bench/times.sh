# Sourced by the measures: what a command takes, its output thrown away.
#
#   seconds COMMAND..   the seconds of the processor
#   elapsed COMMAND..   the seconds from its start to its end
#   counted COMMAND..   its machine instructions, by valgrind's callgrind; what it prints goes to the file that PRINTED names, if any.
#                       Of one `rep stos` or `rep movs` callgrind counts each byte, so the C library is told to use neither
#   least FILE          the least of a file's numbers, one in a line
# shellcheck shell=bash

seconds() {
    local TIMEFORMAT='%U %S'
    { time "$@" </dev/null >/dev/null 2>&1 || true; } 2>&1 | awk '{ print $1 + $2 }'
}

elapsed() {
    local TIMEFORMAT='%R'
    { time "$@" </dev/null >/dev/null 2>&1 || true; } 2>&1
}

counted() {
    GLIBC_TUNABLES=glibc.cpu.x86_rep_stosb_threshold=1000000000:glibc.cpu.x86_rep_movsb_threshold=1000000000 \
        valgrind --tool=callgrind --callgrind-out-file=/dev/null "$@" </dev/null 2>&1 >"${PRINTED-/dev/null}" |
        sed -n 's/.*Collected : //p'
}

least() {
    sort -g "$1" | head -n 1
}
