#!/bin/bash
# build.sh: makes the modules anywhere/xv_run.wasm and anywhere/xv_tools.wasm of the proved programs, and STATE, which tells of
# which state of the sources they are. The same sources give the same modules. It needs `rt` of the Rattle kit, python3, and wasm-opt
# (Debian's binaryen, version 108), and proves what isn't proved yet: up to an hour on 4 processors. A change of code needn't do so:
# CONTRIBUTING.md says who makes the modules, and when.
#
#   build.sh --compare          makes the modules, and that of the page, anew of what is proved (by `rt ci` or `./xv --build`), and
#                               compares: so nobody has to believe who committed them. Those that are of an earlier state, as STATE
#                               or the page says, are told, and not compared. Without wasm-opt, or by another version of it, the
#                               modules are compared as they are before it, by the sums that STATE and the page have.
#   build.sh --unproved FOLDER  makes modules in FOLDER of which nothing is proved, for work on what stands around them
set -eu
cd "$(dirname "$(readlink -f "$0")")"
root=$(dirname "$PWD")
programs=(xv_run xv_tools)

stop() {
    echo "build.sh: $*" >&2
    exit 1
}

sum_of() {
    sha256sum <"$1" | cut -d ' ' -f 1
}

# The text of STATE for the modules in folder $1.
state() {
    local made changes=
    made=$(git -C "$root" log -1 --format='the commit %h of %cs' 2>/dev/null) || made='no commit'
    [ -z "$(git -C "$root" status --porcelain -- ../crates 2>/dev/null)" ] || changes=', and changes that no commit had'
    echo '# Of which state the modules in this folder are: anywhere/build.sh writes it.'
    echo "state $(cat "$root/VERSION") and later, $made$changes"
    echo "code $(python3 -B build/sources.py "$root" --code)"
    for name in "${programs[@]}"; do
        echo "module $name.64.wasm $(sum_of "$1/$name.64.wasm")"
        echo "module $name.wasm $(sum_of "$1/$name.wasm")"
    done
}

# What STATE says of the word or words $1.
said() {
    sed -n "s/^$1 //p" STATE
}

# Whether wasm-opt is here, of the version whose bytes are stored.
is_binaryen() {
    [ "$(wasm-opt --version 2>/dev/null)" = 'wasm-opt version 108' ]
}

# Compares a module with the one that is stored: its name, the stored file, and the sum that is stored of the one of 64 bits.
compare() {
    if [ "$(sum_of "$work/$1.64.wasm")" != "$3" ]; then
        echo "modules: the one of $1 is another than that of the proved sources"
    elif is_binaryen && ! cmp -s "$work/$1.wasm" "$2"; then
        echo "modules: the one of $1 has other bytes after wasm-opt than those that are stored"
    else
        return 0
    fi
    return 1
}

compare_programs() {
    for name in "${programs[@]}"; do
        [ "$(sum_of "$name.wasm")" = "$(said "module $name.wasm")" ] || stop "$name.wasm has another sum than in STATE"
        compare "$name" "$name.wasm" "$(said "module $name.64.wasm")" || failed=yes
    done
}

compare_page() {
    python3 -B ../page/build/module_of.py ../page/nektavoly.html "$work/page.wasm"
    compare xv_page "$work/page.wasm" "$(sed -n 's/.*<!-- module of 64 bits \([0-9a-f]*\) -->.*/\1/p' ../page/nektavoly.html)" || failed=yes
}

compare_all() {
    local wanted=()
    ! ./is_current.sh >/dev/null 2>&1 || wanted+=("${programs[@]}")
    ! ../page/is_current.sh --module >/dev/null 2>&1 || wanted+=(xv_page)
    [ "${#wanted[@]}" = 0 ] || build/modules.sh "$work" "${wanted[@]}"
    failed=
    case " ${wanted[*]} " in *' xv_run '*) compare_programs ;; *) ./is_current.sh --tell ;; esac
    case " ${wanted[*]} " in *' xv_page '*) compare_page ;; *) ../page/is_current.sh --tell ;; esac
    [ -z "$failed" ] || exit 1
    [ "${#wanted[@]}" != 0 ] || return 0
    how='with their bytes'
    is_binaryen || how='as they are before wasm-opt, of which version 108 is not here'
    echo "modules: ${wanted[*]}: made anew of the proved sources, and the same $how"
}

work=$(mktemp -d) && trap 'rm -rf "$work"' EXIT
case ${1-} in
--compare) compare_all ;;
--unproved) build/modules.sh --unproved "${2?}" "${programs[@]}" ;;
'')
    command -v wasm-opt >/dev/null || stop "there is no wasm-opt: apt-get install binaryen"
    "$root/xv" --build
    build/modules.sh "$work" "${programs[@]}"
    state "$work" >"$work/STATE"
    for name in "${programs[@]}"; do cp "$work/$name.wasm" "$name.wasm"; done
    cp "$work/STATE" STATE
    ls -l xv_run.wasm xv_tools.wasm
    ;;
*) stop "it takes --compare, --unproved FOLDER, or nothing" ;;
esac
