#!/bin/sh
# run.sh [--damage COUNT] FILE.c [SWITCH..]: compares variables of a program in C, built with these switches, with what GDB tells of
# them, or damages its tables; see README.md. STOPS, SEED: how many random stops, and which.
set -eu
here=$(dirname "$(readlink -f -- "$0")")
top=$(readlink -f "$here/../..")
damage=
[ "$1" != --damage ] || { damage=$2 && shift 2; }
room=$(mktemp -d) && trap 'rm -rf "$room"' EXIT
cp "$1" "$room/program.c" && shift
cd "$top"
CFLAGS="$*" programs/c/build.sh "$room/program.c"

# A repository of the crates that are tried, and of the program that shows variables.
mkdir -p "$room/tree/crates/show/src" "$room/stops"
for it in xk_base elf_symbols dwarf debug_info; do
    mkdir "$room/tree/crates/$it" && (cd "crates/$it" && tar cf - --exclude=./out .) | tar xf - -C "$room/tree/crates/$it"
    grep "^$it:" crates.txt >>"$room/tree/crates.txt"
done
echo 'show: debug_info' >>"$room/tree/crates.txt"
cp "$here/show.rt.txt" "$room/tree/crates/show/src/main.rt"
show() {
    (cd "$room/tree/crates/show" && rt try --seconds 3000 --steps 1000000000000 -- "$@")
}

text=$(readelf -SW "$room/program.debug" | sed -n 's/^ *\[ *[0-9]*\] \.text  *[A-Z]* *\([0-9a-f]*\) [0-9a-f]* \([0-9a-f]*\) .*/\1 \2/p')
first=$((0x${text% *} + 16)) end=$((0x${text% *} + 0x${text#* })) # without the instructions at which it begins
STOPS=${STOPS-30} && [ -z "$damage" ] || STOPS=1
OUT=$room/stops TEXT=$first,$end FILES=$room/program STOPS=$STOPS SEED=${SEED-1} \
    gdb-multiarch -l 60 -batch -nx "$room/program.debug" -x "$here/stops.py" >"$room/log" 2>&1 || { tail -5 "$room/log"; exit 1; }
if [ -n "$damage" ]; then
    show "$room/program.debug" --damage "$damage" "${SEED-1}" "$room/stops/stop000_0"
else
    find "$room/stops" -name '*_?' | sort | (cd "$room" && xargs sh -c 'cd "$0/tree/crates/show" && exec rt try --seconds 3000 --steps 1000000000000 -- "$@"' "$room" "$room/program.debug") >"$room/said"
    python3 -B "$here/compare.py" "$room/stops" "$room/said"
fi
