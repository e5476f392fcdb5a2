#!/bin/sh
# Finds the bug of gdb/game.c with GDB, by the commands of gdb/game.gdb, and compares what GDB says with
# gdb/game.wanted: checks/gdb.sh [PROGRAM], where PROGRAM serves GDB under its name, xv_gdb, and is without a word the
# one that is proved and built. Then it holds the sessions in gdb/sessions (gdb/sessions.py says how), one with a machine
# that starts slowly, and one over a record that the terminal beside PROGRAM has kept (gdb/recorded.py). `checks/gdb.sh --by-hand [PROGRAM]` leaves you in GDB at the start. It takes half a minute.
#
# It needs gdb-multiarch and a C compiler: apt-get install gdb-multiarch gcc-riscv64-unknown-elf.
set -eu
here=$(cd "$(dirname "$0")" && pwd)
byhand=
[ "${1-}" != --by-hand ] || { byhand=yes; shift; }
program=$(realpath -s "${1-$here/../bin/xv_gdb}")
for tool in gdb-multiarch riscv64-unknown-elf-gcc; do
    command -v "$tool" >/dev/null || { echo "gdb.sh: there is no $tool; apt-get install gdb-multiarch gcc-riscv64-unknown-elf" >&2; exit 2; }
done
"$program" --help >/dev/null 2>&1 || { echo "gdb.sh: $program doesn't start: build it by ./xv" >&2; exit 2; }

room=$(mktemp -d)
trap 'rm -rf "$room"' EXIT
cp "$here/gdb/game.c" "$here/gdb/both.c" "$room"
cd "$room"
"$here/../programs/c/build.sh" game.c both.c
bin=$here/../programs/bin
echo game >rc
serve="$program --frames 512 --file game $bin/init $bin/sh game rc"

if [ -n "$byhand" ]; then
    gdb-multiarch -q game.debug -ex "target remote | $serve"
    exit
fi
# GDB's colours, the host's paths and the numbers of its own that differ from version to version are left out.
gdb-multiarch -q -nx -batch -l 60 game.debug -ex "target remote | $serve" -x "$here/gdb/game.gdb" >said 2>&1 </dev/null || true
sed -e '/^warning:/d' -e '/^Remote debugging/d' -e "s|$room/||g" said >kept
# The same by a file of commands, as ./xv --gdb --commands writes it.
XV_AS_BUILT=yes "$here/../xv" --gdb --commands run.gdb --frames 512 --file game "$bin/init" "$bin/sh" game rc 2>/dev/null
gdb-multiarch -q -nx -batch -x run.gdb -ex 'break report' -ex continue -ex 'print game.rounds' -ex kill >other 2>&1 </dev/null || true
grep -q '^\$1 = 82$' other || {
    echo "checks/gdb.sh: by a file of commands GDB says something else" >&2
    cat other >&2
    exit 1
}
if diff -u "$here/gdb/game.wanted" kept; then
    echo "checks/gdb.sh: GDB says what it should say"
else
    echo "checks/gdb.sh: GDB says something else" >&2
    exit 1
fi
# A machine that needs ten seconds to start, as on a loaded host: by the lines of docs/manual/gdb.md GDB waits for it.
gdb-multiarch -q -nx -batch -l 60 game.debug -ex "target remote | sleep 10; exec $serve" -ex 'break report' -ex continue -ex 'print game.rounds' >slow 2>&1 </dev/null || true
if grep -q '^\$1 = 82$' slow; then
    echo "checks/gdb.sh: GDB waits for a machine that starts slowly"
else
    echo "checks/gdb.sh: GDB doesn't wait for a machine that starts slowly" >&2
    cat slow >&2
    exit 1
fi
echo both >rc
python3 -B "$here/gdb/sessions.py" "$program" .
# A session that the terminal beside it has recorded.
terminal=${program%/*}/xv_terminal
[ ! -x "$terminal" ] || python3 -B "$here/gdb/recorded.py" "$program" "$terminal" .
