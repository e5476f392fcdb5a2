#!/bin/sh
# calls.sh [--clang] FILE.c [SWITCH..]: at random stops of a program in C, built with these switches, compares all calls with what
# GDB tells of them: functions, lines, and the values of arguments and locals. The debugger tells them by ./xv --debug, GDB over
# ./xv --gdb. By gcc, or by clang with lld. STOPS, SEED: how many stops (30), and which; MOST: how many differences are told (20);
# KEEP: a folder that gets the program and the stops.
set -eu
here=$(dirname "$(readlink -f -- "$0")")
top=$(readlink -f "$here/../..")
compiler=gcc
[ "$1" != --clang ] || { compiler=clang && shift; }
room=${KEEP-}
[ -n "$room" ] || { room=$(mktemp -d) && trap 'rm -rf "$room"' EXIT; }
mkdir -p "$room"
cp "$1" "$room/init.c" && shift
cd "$top"

if [ "$compiler" = gcc ]; then
    CFLAGS="$*" programs/c/build.sh "$room/init.c"
else
    mkdir -p "$room/library"
    CFLAGS='' programs/c/build.sh --library "$room/library"
    (cd "$room" && clang --target=riscv64-unknown-elf -march=rv64i -mabi=lp64 -mno-relax -std=gnu11 -ffreestanding -fno-pic \
        -fno-builtin -g "$@" -I"$top/programs/c/lib" -c init.c -o init.o)
    # Of a function that is left out lld's tables would tell that it is at 0, where programs begin here.
    ld.lld -n --gc-sections -z 'dead-reloc-in-nonalloc=.debug_*=0xffffffffffffffff' -T programs/c/lib/program.ld -o "$room/init" "$room"/library/*.o "$room/init.o"
    riscv64-unknown-elf-objcopy --only-keep-debug "$room/init" "$room/init.debug"
    riscv64-unknown-elf-strip "$room/init"
    bin/xv_lines <"$room/init.debug" >"$room/init.lines"
fi

text=$(readelf -SW "$room/init.debug" | sed -n 's/^ *\[ *[0-9]*\] \.text  *[A-Z]* *\([0-9a-f]*\) [0-9a-f]* \([0-9a-f]*\) .*/\1 \2/p')
first=$((0x${text% *} + 16)) end=$((0x${text% *} + 0x${text#* })) # without the instructions at which it begins
OUT=$room/stops.json TEXT=$first,$end FILES=$room/init STOPS=${STOPS-30} SEED=${SEED-1} \
    gdb-multiarch -l 60 -batch -nx "$room/init.debug" -x "$here/frames.py" >"$room/log" 2>&1 || { tail -5 "$room/log"; exit 1; }
python3 -B "$here/beside.py" "$room/stops.json" "$room/init" "${MOST-20}"
