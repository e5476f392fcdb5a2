#!/bin/sh
# Programs that others wrote, on this machine and beside it: programs/c/guests.sh fetches and builds them; here each is
# built for Linux, too, run on the machine and by qemu-riscv64, and what both write, and how they end, is compared.
#
#   checks/outside.sh    all; checks/outside.sh NAME.. some of: kernel calls lua sqlite duktape awk bzip2 zlib dc torture
#
# A line for each run tells the seconds here and by QEMU, and whether both gave the same. The last line is the sum.
# `kernel` are our own, one for each call of the kernel, without a C library: kernel/README.md. `calls` is our own, too, and
# tries what the functions under the C library answer. `torture` is the compiler's own
# gcc.c-torture/execute, at the levels of LEVELS, without it -O0 and -O2: five minutes for each to run, and more to build.
#
# It needs what guests.sh needs, and qemu-user. GUESTS is the folder in which all of it stands, JOBS how many run side
# by side, XV_RUN the machine's program.
set -eu
checks=$(dirname "$(readlink -f -- "$0")")
top=$checks/..
LEVELS=${LEVELS:--O0 -O2}
XV_RUN=$(readlink -f -- "${XV_RUN:-$top/crates/xv_run/out/xv_run}")
export LEVELS XV_RUN checks top

. "$checks/outside/linking.sh"
. "$top/programs/c/guests.sh"
. "$checks/outside/running.sh"

need "$XV_RUN" ./xv
need riscv64-unknown-elf-gcc 'apt-get install gcc-riscv64-unknown-elf'
need qemu-riscv64 'apt-get install qemu-user'

# Our own programs.
build_kernel() {
    cd "$checks/outside/kernel"
    for source in *.c; do
        build "call-${source%.c}" -O1 -- "$source"
    done
}

build_calls() {
    cd "$checks/outside"
    build calls -O1 -- calls.c
}

[ $# -gt 0 ] || set -- kernel calls lua sqlite duktape awk bzip2 zlib dc torture
build_linux_start
: >"$GUESTS/results"
for name; do
    case $name in
        torture) "$checks/outside/torture.sh" ;;
        *)
            (build_"$name")
            (compare_all "$name")
            ;;
    esac
done
tell_sum
