#!/bin/sh
# Whether the calls that the debug adapter shows are those of gdb-multiarch's `bt`, in three programs of programs/c/src at 60
# stops each, if they run so long; calls.sh STOPS for another number. They are built without inlining, of which the tables of
# lines know nothing. It needs Node, gdb-multiarch and the C compiler: apt-get install gdb-multiarch gcc-riscv64-unknown-elf.
# The status is 1 if some differ.
set -eu
cd "$(dirname "$0")/../.."
for tool in gdb-multiarch riscv64-unknown-elf-gcc; do
    command -v "$tool" >/dev/null ||
        { echo "calls.sh: there is no $tool: apt-get install gdb-multiarch gcc-riscv64-unknown-elf" >&2; exit 2; }
done
room=$(mktemp -d) && trap 'rm -rf "$room"' EXIT
for name in wc sort primes; do cp "programs/c/src/$name.c" "$room"; done
(cd "$room" && CFLAGS='-fno-inline -fno-optimize-sibling-calls' "$OLDPWD/programs/c/build.sh" wc.c sort.c primes.c)
node checks/dap/calls.mjs "$room" wc sort primes -- "${1-60}"
