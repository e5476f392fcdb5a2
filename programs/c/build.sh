#!/bin/sh
# Builds programs in C with the small library of lib/.
#
#   programs/c/build.sh            all programs of src/ into ../bin; programs/c/build.sh NAME.. builds some
#   programs/c/build.sh --check    builds them into a folder of its own, and tells which of ../bin are others
#   programs/c/build.sh --debug [NAME..]  leaves programs of src/ in ../debug, each with its names and lines beside it in
#                                         NAME.debug, for debuggers. The programs of ../bin stay alone, since ../bin/* are FILEs
#   programs/c/build.sh --tables          writes tables/NAME.lines for each program of ../bin: its functions and lines, for the page
#   programs/c/build.sh --library FOLDER  leaves the library's objects in the folder, for programs of one's own: for xvcc
#   programs/c/build.sh my.c ..    programs of your own, from any folder: my.c gives the program my beside it, and
#                                  my.debug for debuggers, and my.lines for the page. What the compiler thinks strange is a
#                                  warning, and no error
#
# It needs a C compiler for RISC-V (Debian 12: apt-get install gcc-riscv64-unknown-elf, version 12.2 with
# binutils 2.40). The same compiler gives the same bytes each time. Extra switches stand in CFLAGS.
set -eu
here=$(dirname "$(readlink -f -- "$0")")
tools=${RISCV:-riscv64-unknown-elf-}

# The machine has RV64I and no more: no multiplication, no 16-bit instructions, no misaligned access. The rest
# keeps out what a compiler may add: its own functions, paths, times, notes.
target='-march=rv64i -mabi=lp64 -mstrict-align'
language='-std=gnu11 -fno-pic -fno-common -fno-tree-loop-distribute-patterns'
plain='-fno-ident -fno-asynchronous-unwind-tables -fno-stack-protector -ffunction-sections -fdata-sections'
# A process has one page of stack.
warnings='-Wall -Wextra -Wshadow -Wframe-larger-than=1024'
link='-nostdlib -static -Wl,-n,--gc-sections,--build-id=none,--no-warn-rwx-segments -T program.ld'
library='start.S calls.S other_calls.S texts.c copies.c print.c input.c lines.c heap.c muldiv.c atomics.c'

# Builds program $1 of src/ as file $2. The paths are short ones, so that they are the same everywhere.
build() {
    # shellcheck disable=SC2086
    (cd "$here/lib" && "${tools}gcc" $target $language -Os -ffreestanding $plain $warnings -Wstrict-prototypes -Werror \
        ${CFLAGS-} -I. $link -Wl,-s -o "$2" $library "../src/$1.c")
}

# Leaves program $1 of src/ in the folder $2, with its names and lines beside it.
build_debug() {
    mkdir -p "$2"
    file=$(readlink -f -- "$2")/$1
    # shellcheck disable=SC2086
    (cd "$here/lib" && "${tools}gcc" $target $language -Os -g -ffreestanding $plain $warnings ${CFLAGS-} -I. $link \
        -o "$file" $library "../src/$1.c")
    "${tools}objcopy" --only-keep-debug "$file" "$file.debug"
    "${tools}strip" "$file"
    cmp -s "$file" "$here/../bin/$1" || echo "build.sh: $1 of ../bin is another; the one of $2 goes with its NAME.debug" >&2
}

# Writes the tables of all programs into the folder $1.
build_tables() {
    for name in $(names); do
        build_debug "$name" "$room"
        "$here/../../bin/xv_lines" <"$room/$name.debug" >"$1/$name.lines"
    done
}

# Builds the library into the folder $1, for programs of one's own. Its functions are weak: a program may have one of the
# same name, and that is taken then.
build_library() {
    for source in $library; do
        # shellcheck disable=SC2086
        (cd "$here/lib" && "${tools}gcc" $target $language -Og -g -fno-builtin $plain $warnings ${CFLAGS-} -I. \
            -c "$source" -o "$1/$source.o")
        "${tools}objcopy" --weaken "$1/$source.o"
        objects="$objects $1/$source.o"
    done
}

# Builds the program of file $1 beside it. Its main need not say return.
build_own() {
    [ -e "$1" ] || { echo "build.sh: there is no $1" >&2; return 1; }
    [ -n "$objects" ] || build_library "$room"
    file=$(readlink -f -- "$1")
    program=${file%.c}
    # shellcheck disable=SC2086
    (cd "$here/lib" && "${tools}gcc" $target $language -Og -g -fno-builtin $plain $warnings ${CFLAGS-} -I. $link \
        -o "$program" $objects "$file" -lgcc)
    "${tools}objcopy" --only-keep-debug "$program" "$program.debug"
    "${tools}strip" "$program"
    "$here/../../bin/xv_lines" <"$program.debug" >"$program.lines" || rm "$program.lines"
}

names() {
    for source in "$here"/src/*.c; do
        basename "$source" .c
    done
}

check() {
    others=0
    for name in $(names); do
        build "$name" "$room/$name"
        cmp -s "$room/$name" "$here/../bin/$name" || { echo "$name is another"; others=1; }
    done
    mkdir "$room/tables"
    build_tables "$room/tables"
    diff -rq "$room/tables" "$here/tables" || others=1
    [ "$others" = 0 ] && echo "all programs are what the sources give"
}

command -v "${tools}gcc" >/dev/null || {
    echo "build.sh: there is no ${tools}gcc; this mends it: apt-get install gcc-riscv64-unknown-elf" >&2
    exit 1
}
room=$(mktemp -d)
trap 'rm -rf "$room"' EXIT
objects=
# shellcheck disable=SC2046
[ $# -gt 0 ] || set -- $(names)
[ "$1" = --check ] && { check; exit; }
[ "$1" = --library ] && { build_library "$(readlink -f -- "$2")"; exit; }
[ "$1" = --tables ] && { mkdir -p "$here/tables" && build_tables "$here/tables"; exit; }
if [ "$1" = --debug ]; then
    shift
    # shellcheck disable=SC2046
    [ $# -gt 0 ] || set -- $(names)
    for word; do
        build_debug "$word" "$here/../debug"
    done
    exit
fi
for word; do
    case $word in
        *.c) build_own "$word" ;;
        *.cc | *.cpp | *.cxx | *.C)
            echo "build.sh: $word is C++, which the small library isn't for: xvcc builds it" >&2
            exit 1
            ;;
        *) build "$word" "$here/../bin/$word" ;;
    esac
done
