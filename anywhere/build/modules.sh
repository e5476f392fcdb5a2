#!/bin/bash
# modules.sh [--unproved] FOLDER NAME..: makes the WebAssembly modules of these crates, xv_run, xv_tools or xv_page, side by side: in FOLDER
# NAME.64.wasm, with a memory of 64 bits, and, if Debian's binaryen is there, NAME.wasm, which each engine takes. The same sources
# give the same bytes. The largest, xv_tools, goes before the others, since it takes longest. The crates below are to be proved
# before; see keep.sh for --unproved.
set -eu
here=$(dirname "$(readlink -f "$0")")
root=$(readlink -f "$here/../..")
unproved=()
[ "$1" != --unproved ] || { unproved=(--unproved) && shift; }
folder=$1 && shift
mkdir -p "$folder"

make() {
    [ "$1" = xv_tools ] || renice -n 10 "$BASHPID" >/dev/null
    kind=(--program)
    if [ -e "$root/crates/$1/src/lib.rt" ]; then
        kind=(--library "$1_")
        [ ${#unproved[@]} = 0 ] || export UNDEFINED=yes
    fi
    "$here/keep.sh" "${unproved[@]}" "$root/crates/$1" "$folder/$1.bc" && "$here/wasm.sh" "${kind[@]}" "$folder/$1.bc" "$folder/$1.64.wasm" &&
        { ! command -v wasm-opt || "$here/lower.sh" "$folder/$1.64.wasm" "$folder/$1.wasm"; }
}

makers=()
for name; do
    make "$name" >"$folder/$name.log" 2>&1 &
    makers+=($!)
done
status=0
for name; do
    wait "${makers[0]}" || { echo "modules.sh: $name isn't made:" && tail -20 "$folder/$name.log" && status=1; } >&2
    makers=("${makers[@]:1}")
done
exit "$status"
