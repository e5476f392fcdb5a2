#!/bin/bash
# keep.sh [--unproved] CRATE-FOLDER OUT.bc: builds a program or a static library as it is proved (for x86-64), and keeps the LLVM code
# that clang is given. `rattle build` builds only what is proved. It runs the clang of the folder --toolchain: here that folder is
# the kit's, but for a clang that keeps its input (programs/host/kit.sh). The crates below are to be proved before (`rt ci`,
# `rt all check`).
#
# With --unproved nothing is proved: it is the code that `rt try` builds, with its own checks, larger and some five times slower,
# for work on what stands around while proofs are open. `rt try` builds programs alone, so a library gets one that calls it.
set -eu
unproved=
[ "$1" != --unproved ] || { unproved=yes && shift; }
crate=$(readlink -f "$1") out=$(readlink -f -m "$2")
root=$(dirname "$(dirname "$crate")") name=$(basename "$crate")
. "$(dirname "$(readlink -f "$0")")/../../programs/host/kit.sh"
kit=$(find_kit)
work=$(mktemp -d) && trap 'rm -rf "$work"' EXIT

# What `rattle build` is told of the libraries that the crate stands on, in `words`.
libraries() {
    words=(-L "dependency=$kit/rlibs")
    for it in "$root"/crates/*/out/rlib; do words+=(-L "dependency=$it"); done
    for it in std $(sed -n "s/^$name\( staticlib\)\{0,1\}: *//p" "$root/crates.txt"); do
        file=$root/crates/$it/out/rlib/$it.rlib
        [ -d "$file" ] || file=$kit/rlibs/$it.rlib
        words+=(--extern "$it=$file")
    done
}

build_proved() {
    make_tools "$work/tools" "$out"
    libraries
    if [ -e "$crate/src/main.rt" ]; then
        words+=(src/main.rt -o "$work/built")
    else
        words+=(src/lib.rt --crate-type staticlib -o "$work/lib$name.a")
    fi
    cd "$crate" && "$kit/bin/rattle" build --crate-name "$name" "${words[@]}" --antt-project "$kit/rattle/logic/antt-project.json" \
        --logic-built "$kit/logic_built" --links "$name=" --jobs "$(nproc)" --incremental out/incremental --toolchain "$work/tools" --backend llvm
}

# Beside the static library a program that calls it.
add_caller() {
    sed -i "s/^$name staticlib:/$name:/" crates.txt
    echo "caller: $name" >>crates.txt
    mkdir -p crates/caller/src
    cat >crates/caller/src/main.rt <<END
#![tactic(auto)]
use $name::${name}_root;
fn main(rt: HostRuntime) {
    let mut bytes = [0u8; 512];
    ${name}_root(rt.alloc(), b"init", &mut bytes);
}
END
}

build_unproved() {
    copy_kit "$work/kit" "$out"
    mkdir "$work/tree" && (cd "$root" && tar cf - --exclude=out crates crates.txt HANDLES) | (cd "$work/tree" && tar xf -)
    cd "$work/tree"
    if [ -e "crates/$name/src/main.rt" ]; then
        cd "crates/$name"
    else
        add_caller
        cd crates/caller
    fi
    "$work/kit/bin/rt" try -- --help
}

if [ -n "$unproved" ]; then build_unproved; else build_proved; fi
[ -s "$out" ] || { echo "keep.sh: no code came of $name" >&2; exit 1; }
