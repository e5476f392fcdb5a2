#!/bin/sh
# Runs the programs of this folder under the shell, as a student would, and compares what is told of why they end or
# wait. A report that is another is shown with what differs, and a verdict comes at the end; the status is 0 if all are
# as they should be. XV_WHY is the program, and without it the one that stands in this repository. With XV_NODE=yes it is
# `node xv.mjs --why` in place of ./xv --why: that is what tells a report on a host without a shell.
#
#   checks/why/run.sh           compares
#   checks/why/run.sh --store   keeps what is told now
#
# Then it compares the notes of a run with its trace.
#
# NAME.s.txt and NAME.c.txt have what standard error gets. The programs in C need the compiler with which the texts were
# made (Debian 12: apt-get install gcc-riscv64-unknown-elf, version 12.2): with no compiler or another one they are left
# out, and the verdict says so.
set -u
here=$(dirname "$(readlink -f -- "$0")")
root=$here/../..
store=
case "$*" in
'') ;;
--store) store=yes ;;
*)
    echo 'usage: checks/why/run.sh [--store]' >&2
    exit 2
    ;;
esac
. "$root/checks/programs.sh"
program=${XV_WHY-$(program_path "$root" xv_why)}
needs_program "$program"
XV_WHY=$(realpath -s -- "$program")
export XV_WHY
room=$(mktemp -d) || exit 2
trap 'rm -rf "$room"' EXIT
count=0
others=0

tell_why() {
    if [ "${XV_NODE-}" = yes ]; then
        node "$root/xv.mjs" --why "$@"
    else
        XV_AS_BUILT=yes "$root/xv" --why "$@"
    fi
}

# Runs the program of file $1, which is named $2, and compares what is told with the text $3.
try() {
    printf '%s\n' "$2" |
        tell_why --rounds 2000 "$root/programs/bin/init" "$root/programs/bin/sh" "$1" 2>"$room/told" >/dev/null
    count=$((count + 1))
    if [ -n "$store" ]; then
        cp "$room/told" "$here/$3"
    elif ! cmp -s "$room/told" "$here/$3"; then
        echo "$3 is another:"
        diff "$here/$3" "$room/told"
        others=$((others + 1))
    fi
}

for source in "$here"/*.s; do
    name=$(basename "$source" .s)
    try "$source" "$name" "$name.s.txt"
done

without=
case $(riscv64-unknown-elf-gcc -dumpfullversion 2>/dev/null) in
    12.2.*)
        cp "$here"/*.c "$room"
        # A chain of frames can be followed where the compiler keeps them.
        CFLAGS='-fno-omit-frame-pointer -Wno-infinite-recursion -Wno-unused-variable'
        export CFLAGS
        "$root/programs/c/build.sh" "$room"/*.c || exit 2
        for source in "$room"/*.c; do
            name=$(basename "$source" .c)
            try "$room/$name" "$name" "$name.c.txt"
        done
        ;;
    *) without=', without those in C: there is no compiler of version 12.2' ;;
esac
# Each event as a line (--notes) is the trace, with the names of programs and what sleepers wait for between its lines.
run_pipeline() {
    # Standard error alone goes on.
    # shellcheck disable=SC2069
    echo 'echo a | wc' | "$XV_WHY" --rounds 60 --quantum 100 "$@" "$root/programs/bin/init" "$root/programs/bin/sh" \
        "$root/programs/bin/echo" "$root/programs/bin/wc" 2>&1 >/dev/null
}
count=$((count + 1))
run_pipeline --trace 65536 >"$room/trace"
run_pipeline --notes >"$room/notes"
sed '/^name /d; /^waits /d' "$room/notes" >"$room/alone"
grep -q '^name 4 wc$' "$room/notes" && grep -q '^waits 4 read on descriptor 0, the read end of a pipe$' "$room/notes" &&
    cmp "$room/alone" "$room/trace" || {
    echo 'the notes of a pipeline are not its trace with names'
    others=$((others + 1))
}
[ "$others" = 0 ] && echo "all $count reports are as they should be$without" && exit 0
echo "$others of $count reports are others$without"
exit 1
