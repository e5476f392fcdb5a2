#!/bin/bash
# Measures programs in C: bench/run.sh programs [NAME..], or all of this folder. Each is built for the machine and, from the
# same source, for Linux. Then ours (the whole of xv_run, in rounds of 1,000 Runs), the interpreter in plain Rust
# (../pages/plain.rs), a JIT (qemu-riscv64, if it is there) and ours as a module (by node, if it is there) run it in turn, five
# times, or TURNS times; the least user and system time of each counts, of the module the least time from start to end, beside
# ours. With --count instead, valgrind's callgrind counts ours between 2,000 and 6,000 rounds (large_sieve: 25,400), in which boot
# cancels.
# It needs the C compiler that ../../programs/c/build.sh names.
set -e
here=$(cd "$(dirname "$0")" && pwd)
root=$(cd "$here/../.." && pwd)
. "$root/bench/times.sh"
"$root/xv" --build
xv=$root/crates/xv_run/out/xv_run
work=$(mktemp -d)
trap 'rm -rf "$work"' EXIT
language='-march=rv64i -mabi=lp64 -mstrict-align -O2 -std=gnu11 -Wall -Wextra -Werror -ffreestanding -fno-builtin -fno-pic
    -fno-tree-loop-distribute-patterns -nostdlib -static'

# Builds one program for the machine, and for Linux.
build() {
    mkdir "$work/$1"
    # shellcheck disable=SC2086
    riscv64-unknown-elf-gcc $language -DSYSTEM_EXIT=2 "$here/start.S" "$here/$1.c" -lgcc -o "$work/$1/init" \
        -T "$root/programs/c/lib/program.ld" -Wl,-n,-s,--build-id=none,--no-warn-rwx-segments
    # shellcheck disable=SC2086
    riscv64-unknown-elf-gcc $language -DSYSTEM_EXIT=93 -DHAS_GLOBAL_POINTER "$here/start.S" "$here/$1.c" -lgcc \
        -o "$work/$1/linux" -Wl,--no-warn-rwx-segments
}

ours() { "$xv" --rounds 100000000 --quantum 1000 "$work/$1/init"; }
plain() { "$work/plain-interpreter" "$work/$1/init"; }
jit() { qemu-riscv64 "$work/$1/linux"; }
node_ours() { XV_NODE=yes "$root/bin/xv_run" --rounds 100000000 --quantum 1000 "$work/$1/init"; }

# Whether all ways end with the same status: ours tells it in its closing line, the interpreter behind the number of instructions.
are_equal() {
    local here other
    here=$(ours "$1" </dev/null 2>&1 >/dev/null | sed -n 's/.*init exited with //p')
    [ "$here" = "${2#* }" ] || { echo "$1 ends with status $here here, and with ${2#* } by the interpreter"; return 1; }
    [ -n "$has_jit" ] || return 0
    other=0
    jit "$1" || other=$?
    [ "$here" = "$other" ] || { echo "$1 ends with status $here here, and with $other by the JIT"; return 1; }
}

# One line of the table of times.
measure() {
    local name=$1 told way
    told=$(plain "$name")
    are_equal "$name" "$told"
    for _ in $(seq "${TURNS-5}"); do
        for way in ours plain ${has_jit:+jit}; do seconds "$way" "$name" >>"$work/$name/$way"; done
        [ -z "$has_node" ] || for way in ours node_ours; do elapsed "$way" "$name" >>"$work/$name/$way-elapsed"; done
    done
    awk -v name="$name" -v done="${told% *}" -v ours="$(least "$work/$name/ours")" -v plain="$(least "$work/$name/plain")" \
        -v jit="$( [ -z "$has_jit" ] || least "$work/$name/jit")" \
        -v here="$( [ -z "$has_node" ] || least "$work/$name/ours-elapsed")" -v node="$( [ -z "$has_node" ] || least "$work/$name/node_ours-elapsed")" 'BEGIN {
            printf "| `%s` | %.0f | %.0f | %.2f |", name, done / 1e6, done / 1e6 / ours, plain / ours
            if (jit > 0) printf " %.1f |", ours / jit; else printf " |"
            if (node > 0) printf " %.2f |\n", here / node; else print " |" }'
}

count() {
    local few many last=6000
    # Its loops take ever more pages, so it is counted over one whole sieve.
    [ "$1" != large_sieve ] || last=25400
    few=$(counted "$xv" --rounds 2000 --quantum 1000 "$work/$1/init")
    many=$(counted "$xv" --rounds "$last" --quantum 1000 "$work/$1/init")
    awk -v name="$1" -v few="$few" -v many="$many" -v done="$(((last - 2000) * 1000))" \
        'BEGIN { printf "| `%s` | %.1f |\n", name, (many - few) / done }'
}

does=measure
if [ "${1-}" = --count ]; then
    does=count
    shift
fi
rustc --edition 2021 -O -o "$work/plain-interpreter" "$here/../pages/plain.rs"
has_jit=$(command -v qemu-riscv64 || true)
has_node=$(command -v node || true)
[ $# -gt 0 ] || set -- "$here"/*.c
if [ $does = measure ]; then
    echo '| program | million instructions | million a second | plain Rust / ours | ours / JIT | ours / module |'
    echo '|---|---|---|---|---|---|'
else
    echo '| program | machine instructions for one |'
    echo '|---|---|'
fi
for word; do
    name=$(basename "$word" .c)
    build "$name"
    $does "$name"
done
