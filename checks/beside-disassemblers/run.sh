#!/bin/bash
# Compares what a word is with what GNU's and LLVM's disassemblers say: see README.md.
#
#   run.sh                  all 2^32 words, on one processor
#   run.sh OPCODE..         those alone whose bits 6 to 2 are one of these numbers, 0 to 31, and bits 1 and 0 are 11
#   run.sh --short          those alone whose bits 1 and 0 are others
#   run.sh --whole OPCODE.. as OPCODE.., and GNU's table is searched whole, which takes up to ten times as long
#   run.sh --sample         writes sample.txt anew
#
# It needs Debian 12's gcc, python3, wabt, llvm-14-dev, binutils-dev, binutils-multiarch-dev and binutils-riscv64-unknown-elf. The
# status is 1 if a word is another than the project and differences.txt say, 2 if something is missing.
set -eu
here=$(dirname "$(readlink -f "$0")")

need() {
    [ -n "$(command -v "$1" || ls "$1" 2>/dev/null)" ] && return
    echo "run.sh: there is no $1; this mends it: apt-get install $2" >&2
    exit 2
}

need gcc gcc
need wasm2c wabt
need llvm-config-14 llvm-14-dev
need /usr/include/dis-asm.h binutils-dev
need /usr/lib/x86_64-linux-gnu/libopcodes-multiarch.so binutils-multiarch-dev
need riscv64-unknown-elf-as binutils-riscv64-unknown-elf

work=$(mktemp -d) && trap 'rm -rf "$work"' EXIT
runtime=/usr/share/wabt/wasm2c

# The module that stands in the page becomes C, and is linked with both libraries.
build() {
    python3 -B "$here/../../page/build/module_of.py" "$here/../../page/nektavoly.html" "$work/page.wasm"
    wasm2c "$work/page.wasm" -o "$work/page.c"
    gcc -O2 -w -I"$runtime" -c "$work/page.c" -o "$work/page.o"
    gcc -O2 -w -I"$runtime" -c "$runtime/wasm-rt-impl.c" -o "$work/runtime.o"
    gcc -O2 -Wall -Wextra -I"$work" -I"$here" -isystem "$runtime" -isystem "$(llvm-config-14 --includedir)" "$here"/*.c \
        "$work/page.o" "$work/runtime.o" -o "$work/compare" "-L$(llvm-config-14 --libdir)" -lLLVM-14 -lopcodes-multiarch -lbfd-multiarch
    echo nop | riscv64-unknown-elf-as -march=rv64i -o "$work/rv64i.o" -
}

compare() {
    "$work/compare" "$work/rv64i.o" "$here/differences.txt" "$@" || status=1
}

status=0
build
case ${1-} in
--sample)
    python3 -B "$here/sample.py" --words | "$work/compare" "$work/rv64i.o" "$here/differences.txt" tell >"$work/sample.txt"
    cp "$work/sample.txt" "$here/sample.txt"
    ;;
--short) compare short ;;
--whole)
    shift
    compare whole "$@"
    ;;
*)
    [ $# != 0 ] || set -- {0..31} short
    for opcode; do
        if [ "$opcode" = short ]; then compare short; else compare sweep "$opcode"; fi
    done
    ;;
esac
exit "$status"
