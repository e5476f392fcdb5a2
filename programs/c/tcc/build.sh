#!/bin/sh
# Makes a C compiler that runs by Node and in a page, TinyCC of Debian's source package, and the C library of ../lib for it:
#
#   programs/c/tcc/build.sh            fetches, builds, and leaves all in the folder out; it prints what lies there
#   programs/c/tcc/build.sh FOLDER     the same into another folder
#   programs/c/tcc/build.sh --version  which source package it is
#   programs/c/tcc/build.sh --is-current   whether what lies in out is of the sources that stand here, told by their sum
#
# No line of TinyCC stands in this repository. insert.py adds to its source what the machine needs, in lines of our own. What lies
# in out is a part of a release, and of no clone: tcc.wasm, the compiler as a module of WASI; lib/*.o and include, the library;
# COPYING and NOTICE, whose compiler it is; SOURCES, the sum of what it was made of; and riscv64-tcc, which no release has: the
# same compiler for this host, to compare with.
#
# It needs Debian 12's clang, lld, wasi-libc, libclang-rt-14-dev-wasm32, gcc, make, python3 and apt, and the network, and nobody has
# to be root. The sources are fetched by apt with lists of its own; nothing of the system's settings is changed. They are used again
# if they lie in the folder TCC_SOURCES. The same sources give the same bytes. The status is 2 if something is missing.
set -eu
here=$(dirname "$(readlink -f -- "$0")")
PACKAGE=tcc
VERSION=0.9.27+git20200814.62c30a4a
SUM=d63c113bcdd657f51c8ee197a0b0a24203603313e19a52b5f678d40ab7f5df35
ARCHIVE=${PACKAGE}_$VERSION.orig.tar.bz2

give_up() {
    echo "build.sh: $*" >&2
    exit 2
}

need() {
    [ -n "$(command -v "$1" || ls -d "$1" 2>/dev/null)" ] || give_up "there is no $1; this mends it: apt-get install $2"
}

# The sum of what all is made of: this folder's files, the library's, and the name of the source package.
sources_sum() {
    (cd "$here/.." && find tcc lib -type f ! -path 'tcc/out/*' ! -name '*.md' | LC_ALL=C sort | xargs sha256sum | sha256sum | cut -d ' ' -f 1)
}

KEYS=/usr/share/keyrings/debian-archive-keyring.gpg

# Fetches the archive into the folder $1, by apt, with lists, sources and a state of its own.
fetch() {
    mkdir -p "$1/apt/lists/partial" "$1/apt/archives/partial"
    # the place from which this host has its packages, for sources
    apt-get indextargets --format "deb-src [signed-by=$KEYS] \$(REPO_URI) \$(RELEASE) main" 'Created-By: Packages' |
        grep -v -e '-security' -e '-updates' | sort -u | head -n 1 >"$1/apt/list"
    for words in update "source --download-only $PACKAGE=$VERSION-1"; do
        # shellcheck disable=SC2086
        (cd "$1" && apt-get -qq -o Dir::State="$1/apt" -o Dir::State::status=/var/lib/dpkg/status -o Dir::Cache="$1/apt" \
            -o Dir::Etc::SourceList="$1/apt/list" -o Dir::Etc::SourceParts=- -o APT::Sandbox::User=root $words) ||
            give_up "apt doesn't fetch the source package $PACKAGE $VERSION-1"
    done
}

# Unpacks the source into $work/tcc, and inserts.
unpack() {
    sources=${TCC_SOURCES:-$work/sources}
    [ -e "$sources/$ARCHIVE" ] || { mkdir -p "$sources" && fetch "$(readlink -f -- "$sources")"; }
    echo "$SUM  $sources/$ARCHIVE" | sha256sum --check --quiet || give_up "$ARCHIVE has another sum"
    mkdir "$work/tcc"
    tar -xf "$sources/$ARCHIVE" -C "$work/tcc"
    python3 -B "$here/insert.py" "$work/tcc"
    echo "#define TCC_VERSION \"$VERSION\"" >"$work/tcc/config.h"
}

# One file of the source includes all others. The paths are those that the module's host gives it.
WORDS='-DONE_SOURCE=1 -DTCC_TARGET_RISCV64 -DCONFIG_TCC_CROSSPREFIX="riscv64-" -DCONFIG_TCC_STATIC -DCONFIG_TCC_SEMLOCK=0
    -DCONFIG_TCCDIR="/tcc" -w'

build_compilers() {
    (
        cd "$work/tcc"
        # shellcheck disable=SC2046
        clang --target=wasm32-wasi -Oz -I"$here/wasi" -I. $(quoted) -D_WASI_EMULATED_SIGNAL -D_WASI_EMULATED_GETPID -c tcc.c \
            "$here/wasi/semaphores.c"
        # Linked without a word on optimizing: else clang runs wasm-opt, if the host has it, and the bytes are others.
        clang --target=wasm32-wasi tcc.o semaphores.o -o "$out/tcc.wasm" -lwasi-emulated-getpid -lwasi-emulated-signal -Wl,--strip-all
        # shellcheck disable=SC2046
        gcc -O1 -I. $(quoted) tcc.c -o "$out/riscv64-tcc" -lm -ldl
    )
}

# The words, with the quotes that belong to texts.
quoted() {
    echo "$WORDS" | sed 's/"/\\"/g; s/\\"/"/g'
}

# The library's objects, each function in a section of its own, so that a program has those alone that it uses.
build_library() {
    mkdir -p "$out/lib" "$out/include"
    cp "$here/../lib"/*.h "$here/include"/*.h "$out/include/"
    cp -r "$here/../lib/sys" "$here/../lib/kernel" "$here/../lib/user" "$out/include/"
    for name in float stdalign stdarg stdbool stddef stdnoreturn; do
        cp "$work/tcc/include/$name.h" "$out/include/"
    done
    for source in "$here/../lib"/*.c "$here/../lib"/*.S; do
        name=$(basename "$source")
        (cd "$here/../lib" && clang --target=riscv64-unknown-elf -march=rv64i -mabi=lp64 -mno-relax -mcmodel=medany -Os -std=gnu11 \
            -ffreestanding -fno-builtin -fno-pic -fno-ident -fno-asynchronous-unwind-tables -ffunction-sections -fdata-sections \
            -Wno-atomic-alignment -I"$here/include" -I. -c "$name" -o "$out/lib/$name.o")
    done
}

tell_whose() {
    cp "$work/tcc/COPYING" "$out/COPYING"
    cat >"$out/NOTICE" <<END
The compiler in tcc.wasm is TinyCC, by Fabrice Bellard and others, under the GNU Lesser General Public License, version 2.1 or later,
which stands in COPYING. It was built of Debian's source package $PACKAGE $VERSION-1 (https://packages.debian.org/source/bookworm/$PACKAGE;
$ARCHIVE, SHA-256 $SUM) after programs/c/tcc/insert.py of Nektavoly had added some lines to it; programs/c/tcc/build.sh makes it anew. It has parts
of wasi-libc (https://github.com/WebAssembly/wasi-libc), as Debian's package $(dpkg-query -W wasi-libc | tr '\t' ' ') has it. The files float.h,
stdalign.h, stdarg.h, stdbool.h, stddef.h and stdnoreturn.h in include are TinyCC's, too. All else here is Nektavoly's own.
END
}

case ${1-} in
--version)
    echo "$PACKAGE $VERSION-1, $ARCHIVE, SHA-256 $SUM"
    exit
    ;;
--is-current)
    [ "$(cat "$here/out/SOURCES" 2>/dev/null)" = "$(sources_sum)" ] || give_up "there is no compiler in $here/out that is of these sources"
    exit
    ;;
-*) give_up "it takes a folder, --version or --is-current" ;;
esac
need clang clang
need wasm-ld lld
need /usr/include/wasm32-wasi wasi-libc
need /usr/lib/llvm-14/lib/clang/14.0.6/lib/wasi libclang-rt-14-dev-wasm32
need gcc gcc
need python3 python3
need apt-get apt
work=$(mktemp -d)
trap 'rm -rf "$work"' EXIT
out=$work/out
mkdir "$out"
unpack
build_compilers
build_library
tell_whose
sources_sum >"$out/SOURCES"
to=${1:-$here/out}
rm -rf "$to"
mkdir -p "$(dirname "$to")"
cp -r "$out" "$to"
(cd "$to" && find . -type f | sort | xargs ls -l)
