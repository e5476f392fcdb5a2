#!/bin/bash
# counts.sh [XV_RUN]: counts by valgrind's callgrind what calls of the kernel cost the whole of xv_run, in machine
# instructions: a write and a read of 512 bytes by one process, with their 14 instructions; a fork, an exit and a wait
# of a process of three pages; 2,048 bytes from one process's memory into another's, by calls of a page and by calls for
# all that is left. Each program is counted twice, with fewer and with more rounds, and the difference is told for one
# round: so boot cancels. It takes some 20 seconds, and needs Debian's valgrind.
#
# All is done in one round of 1,000,000 Runs. Those after the end of init are sent at once.
set -eu
here=$(cd "$(dirname "$0")" && pwd)
root=$(cd "$here/../.." && pwd)
. "$root/bench/times.sh"
command -v valgrind >/dev/null || { echo "counts.sh: there is no valgrind: apt-get install valgrind" >&2; exit 2; }
xv=${1-$root/crates/xv_run/out/xv_run}
[ -x "$xv" ] || { echo "counts.sh: there is no $xv: ./xv --build builds it" >&2; exit 2; }
work=$(mktemp -d)
trap 'rm -rf "$work"' EXIT

# The machine instructions of a run of a source.
count() {
    mkdir -p "$work/run"
    cp "$1" "$work/run/init.s"
    counted "$xv" --rounds 1 --quantum 1000000 "$work/run/init.s"
}

# per TITLE SOURCE FEW MANY PARTS: what one of so many parts of a round costs. The line that sets s2 says how many rounds
# there are.
per() {
    local title=$1 source=$2 few=$3 many=$4 parts=$5 counts=() number
    for number in "$few" "$many"; do
        sed "s/^  li s2, [0-9]*$/  li s2, $number/" "$source" >"$work/source.s"
        counts+=("$(count "$work/source.s")")
    done
    echo "$title: $(((counts[1] - counts[0]) / (many - few) / parts))"
}

per 'a write and a read of 512 bytes' "$here/calls/init.s" 200 2000 1
per 'fork, exit and wait of a process of 3 pages' "$here/forks/init.s" 200 2000 1
per '2,048 bytes through a pipe, by calls of a page' "$here/pipe/init.s" 10 30 512
sed 's/lui a2, 1$/mv a2, s4/' "$here/pipe/init.s" >"$work/whole.s"
per '2,048 bytes through a pipe, by calls for all that is left' "$work/whole.s" 5 10 512
