#!/bin/bash
# wasm.sh (--program | --library PREFIX) CODE.bc OUT.wasm: makes a WebAssembly module of the LLVM code that `rattle build` made for
# x86-64 (keep.sh), by the kit's clang and linker, with heap.c and, for a program, wasi.c in place of the C library on Linux. Of a
# library the calls whose names begin with PREFIX are given to the host. The module has a memory of 64 bits; lower.sh makes it one
# that each engine takes. If UNDEFINED is set, what no file has may be asked of the host: so it is in a library that isn't proved.
#
# Both targets have 64-bit pointers, the same byte order, and the same sizes and alignments of i8 to i128; the code
# writes each offset as a number of bytes. So only the names of the target and of its processor are replaced, and the
# calls of a library, which it has for itself, get the names that the host knows; its root, by which the library reaches
# them, is left out. What is for x86-64 alone is looked for, and ends this.
set -eu
here=$(dirname "$(readlink -f "$0")")
. "$here/../../programs/host/kit.sh"
kit=$(find_kit)
clang=$kit/toolchain/bin/clang
prefix=
[ "$1" = --program ] || { prefix=$2 && shift; }
from=$(readlink -f "$2") to=$(readlink -f -m "$3")
work=$(mktemp -d) && trap 'rm -rf "$work"' EXIT
target=wasm64-unknown-unknown
layout='e-m:e-p:64:64-p10:8:8-p20:8:8-i64:64-i128:128-n32:64-S128-ni:1:10:20'
"$clang" --target=x86_64-unknown-linux-gnu --no-default-config -x ir "$from" -S -emit-llvm -Xclang -disable-llvm-passes -o "$work/x86.ll"
sed -E -e "s/^target datalayout = .*/target datalayout = \"$layout\"/" \
    -e "s/^target triple = .*/target triple = \"$target\"/" \
    -e 's/ "target-cpu"="[^"]*"| "probe-stack"="[^"]*"| "stack-probe-size"="[^"]*"| "frame-pointer"="[^"]*"| "target-features"="[^"]*"//g' \
    -e 's/^(attributes #[0-9]+ = \{) *\}/\1 nounwind }/' "$work/x86.ll" >"$work/wasm.ll"
if [ -n "$prefix" ]; then
    sed -i -E -e "s/@\"${prefix%_}::root::${prefix}root\"/@root_of_the_library/g" \
        -e "s/@\"${prefix%_}::[a-z_]+::(${prefix}[a-z_]+)\"/@\1/g" \
        -e "s/^define internal ([^@]*@${prefix}[a-z_]+\()/define \1/" "$work/wasm.ll"
fi
if grep -nE 'asm sideeffect|asm "|@llvm\.x86|thread_local|x86_fp80|"target-cpu"|"target-features"' "$work/wasm.ll" | head -5 | grep .; then
    echo "wasm.sh: the code has parts for x86-64 alone" >&2
    exit 1
fi
# As the kit's own rattle-link has them for wasm64.
flags=("--target=$target" -mcpu=lime1 -O3 -mllvm -trap-unreachable -mllvm -no-trap-after-noreturn -ffunction-sections -fdata-sections)
flags+=(--no-default-config -fno-crash-diagnostics)
"$clang" "${flags[@]}" -c -x ir "$work/wasm.ll" -o "$work/code.o"
of_c() {
    "$clang" "${flags[@]}" -ffreestanding -fno-builtin -nostdinc -Wall -Wextra -Werror -c "$here/$1.c" -o "$work/$1.o"
}
of_c heap
if [ -n "$prefix" ]; then
    mapfile -t exports < <(sed -nE "s/^define [^@]*@(${prefix}[a-z_]+)\(.*/\1/p" "$work/wasm.ll" | sort -u | sed "/^${prefix}root\$/d; s/^/--export=/")
    [ "${#exports[@]}" -gt 0 ] || { echo "wasm.sh: the module exports nothing" >&2; exit 1; }
    parts=(--export=page_take --export=page_give "${exports[@]}" "$work/code.o" "$work/heap.o") stack=1048576
else
    of_c wasi
    parts=(--export=_start "$work/code.o" "$work/heap.o" "$work/wasi.o") stack=4194304
fi
[ -z "${UNDEFINED-}" ] || parts+=(--allow-undefined)
"$kit/toolchain/bin/ld.lld" -flavor wasm -mwasm64 --no-entry --stack-first -z stack-size=$stack --gc-sections --threads=1 \
    -o "$to" "${parts[@]}"
