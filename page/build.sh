#!/bin/bash
# build.sh [--same-module | --earlier-module | --unproved]: proves crates/xv_page, makes the WebAssembly module of its static library (anywhere/build) and
# the page of it, page/nektavoly.html. The same sources give the same bytes. It needs `rt` of the Rattle kit, python3, and wasm-opt
# (Debian's binaryen, version 108). With --same-module the module is taken out of the page that stands here, if it was built of the
# crates' code as it is: for changes of the page alone, in a second, by python3 alone. With --earlier-module it is taken out in any
# case, and the page's foot says that it is of an earlier state: a release refuses such a page. With --unproved nothing is proved: for work on
# the page alone, and its foot says so.
set -eu
cd "$(dirname "$(readlink -f "$0")")"
root=$(dirname "$PWD")
work=$(mktemp -d) && trap 'rm -rf "$work"' EXIT
# What the page that stands here says of its module.
said() {
    sed -n "s/.*<!-- $1 \\([0-9a-f]*\\) -->.*/\\1/p" nektavoly.html
}
if [ "${1-}" = --earlier-module ]; then
    python3 -B build/module_of.py nektavoly.html "$work/xv_page.wasm"
    MODULE_SUM=$(said module) python3 -B build/build_page.py "$work/xv_page.wasm" "$(said 'module of 64 bits')" "$root" nektavoly.html \
        'Its module is of an earlier state of the crates. '
    exit
fi
if [ "${1-}" = --same-module ]; then
    grep -q "<!-- module $(python3 -B ../anywhere/build/sources.py "$root" --module) -->" nektavoly.html || {
        echo "build.sh: the code of the crates is other than that of the page's module: build it without --same-module" >&2
        exit 1
    }
    python3 -B build/module_of.py nektavoly.html "$work/xv_page.wasm"
    python3 -B build/build_page.py "$work/xv_page.wasm" "$(sed -n 's/.*<!-- module of 64 bits \([0-9a-f]*\) -->.*/\1/p' nektavoly.html)" "$root" nektavoly.html
    exit
fi
command -v wasm-opt >/dev/null || { echo "build.sh: there is no wasm-opt: apt-get install binaryen" >&2; exit 1; }
note='' unproved=()
if [ "${1-}" = --unproved ]; then
    note='A build for work on the page, of which nothing was proved. ' unproved=(--unproved)
else
    (cd "$root/crates/xv_page" && rt lib) >"$work/log" 2>&1 || { tail -20 "$work/log"; exit 1; }
fi
../anywhere/build/modules.sh "${unproved[@]}" "$work" xv_page
python3 -B build/build_page.py "$work/xv_page.wasm" "$(sha256sum <"$work/xv_page.64.wasm" | cut -d ' ' -f 1)" "$root" nektavoly.html "$note"
