#!/bin/sh
# Builds the programs of this folder as a student would, runs them under the shell, and compares what is shown with
# told.txt: sources in xv6's way and names of C by programs/c/build.sh, C++ by xvcc, and what is refused. A verdict comes at
# the end; the status is 0 if all is as it should be.
#
#   checks/c-programs/run.sh           compares
#   checks/c-programs/run.sh --store   keeps what is told now
#
# It needs the compiler with which the text was made (Debian 12: apt-get install gcc-riscv64-unknown-elf, version 12.2), and for
# C++ picolibc-riscv64-unknown-elf: what can't be built is left out, and the verdict says so. XV_RUN is the machine's program.
set -u
here=$(dirname "$(readlink -f -- "$0")")
root=$here/../..
# shellcheck source=checks/programs.sh
. "$root/checks/programs.sh"
program=${XV_RUN-$(program_path "$root" xv_run)}
needs_program "$program"
program=$(realpath -s -- "$program")
compiler=riscv64-unknown-elf-gcc
case $("$compiler" -dumpfullversion 2>/dev/null) in
    12.2.*) ;;
    *)
        echo 'programs in C: not built, since there is no compiler of version 12.2'
        exit 0
        ;;
esac
room=$(mktemp -d) || exit 2
trap 'rm -rf "$room"' EXIT
cp "$here"/*.c "$here"/*.cpp "$room" && cd "$room" || exit 2
bin=$(realpath -- "$root/programs/bin")

# Runs a command line under the shell, with the program $1 in this folder, and tells what is shown.
run() {
    echo "$ $2"
    printf '%s\n' "$2" >rc
    "$program" --rounds 2000 --quantum 20000 "$bin/init" "$bin/sh" "$bin/echo" "$bin/cat" "$bin/wc" "$1" rc </dev/null 2>&1 | sed "s|$room/||"
}

# Tells the first error of what builds, without the paths of this host.
refused() {
    if "$@" >said 2>&1; then
        echo "$2 is built"
    else
        grep -m 1 -E 'error:|^(xvcc|build.sh): ' said | sed 's|^.*error: ||'
    fi
}

tell_small() {
    for name in sleep pingpong primes xargs modes pages; do
        "$root/programs/c/build.sh" $name.c || echo "$name isn't built"
    done
    run sleep 'sleep 3; sleep'
    run pingpong pingpong
    run primes 'primes 40'
    run primes 'primes | wc'
    run xargs 'echo one two | xargs echo said'
    run xargs xargs
    run modes 'modes one; modes'
    run pages pages
    mv pages pages.first
    "$root/programs/c/xvcc" -O1 -g pages.c -o pages || echo "pages isn't built"
    run pages pages
    "$root/programs/c/xvcc" -Os -c pages.c && "$root/programs/c/xvcc" --xv6 pages.o -o pages || echo "pages isn't built"
    run pages pages
    refused "$root/programs/c/build.sh" find.c
    refused "$root/programs/c/build.sh" shapes.cpp
}

tell_cplusplus() {
    for name in shapes pure; do
        "$root/programs/c/xvcc" -O2 -Wall $name.cpp -o $name || echo "$name isn't built"
    done
    run shapes shapes
    run pure pure
    refused "$root/programs/c/xvcc" throws.cpp -o throws
    refused "$root/programs/c/xvcc" -fexceptions throws.cpp -o throws
    "$root/programs/c/xvcc" --guard-null -O1 null.c -o null || echo "null isn't built"
    for use in call store load; do
        run null "null $use"
    done
}

tell_small >told
without=
if [ -e "${PICOLIBC:-/usr}/lib/picolibc/riscv64-unknown-elf/picolibc.specs" ]; then
    tell_cplusplus >>told
    cp "$here/told.txt" wanted
else
    without=', without C++: there is no picolibc'
    sed '/^\$ shapes$/,$d' "$here/told.txt" >wanted
fi
if [ "${1-}" = --store ]; then
    cp told "$here/told.txt"
    exit
fi
diff wanted told || {
    echo "programs in C: what is shown is another$without"
    exit 1
}
echo "programs in C: all is as it should be$without"
