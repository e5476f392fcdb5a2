#!/bin/sh
# Builds hello.c in ways that are wrong, for the table in docs/manual/running.md ("When a program of yours doesn't
# run"): each way gives a file NAME/init. strange.c is built rightly, and does what can't be done here. It needs the
# compiler of ../c/build.sh.
set -eu
cd "$(dirname "$0")"

tools=${RISCV:-riscv64-unknown-elf-}
lib=../c/lib
library="$lib/calls.S $lib/texts.c $lib/print.c $lib/muldiv.c"
parts="$library hello.c"
plain='-Os -ffreestanding -nostdlib -static -fno-ident -fno-asynchronous-unwind-tables -Wl,-s,--build-id=none'
isa='-march=rv64i -mabi=lp64'
layout="-Wl,-n -T $lib/program.ld"

# Builds $1/init with the words behind it.
build() {
    mkdir -p "$1"
    to=$1/init
    shift
    # shellcheck disable=SC2086
    "${tools}gcc" $plain -I$lib -o "$to" "$@" 2>/dev/null
    chmod 644 "$to"
}

# shellcheck disable=SC2086
{
    build right $isa $layout $lib/start.S $parts
    # A compiler's default: 16-bit instructions, multiplication, floating point.
    build compressed -march=rv64gc -mabi=lp64d $layout $lib/start.S $parts
    # The linker's own layout, in which a segment begins within a page.
    build misplaced $isa $lib/start.S $parts
    # Linked where an embedded board has its RAM.
    build high $isa -mcmodel=medany -Wl,-N,-Ttext=0x80000000 $lib/start.S $parts
    # Without the code that calls main: the first function at address 0 is the call fork.
    build no_start $isa $layout $parts
    # Compiled, but not linked.
    build unlinked $isa -c hello.c
    # An instruction that is there to end a program.
    build traps $isa $layout $lib/start.S $library -DTRAPS strange.c
    # The register that counts cycles.
    build counts -march=rv64i_zicsr -mabi=lp64 $layout $lib/start.S $library -DCOUNTS strange.c
    # A function within a function, and its address.
    build nests $isa $layout $lib/start.S $library -DNESTS strange.c
    # A variable of each thread.
    build keeps $isa $layout $lib/start.S $library -DKEEPS strange.c
}
