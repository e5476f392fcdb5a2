#!/bin/sh
# GCC's own tests of what it compiles, gcc.c-torture/execute: each is a program that ends with 0 where all is right.
# ../outside.sh runs this with its settings; checks/outside/torture.sh NAME LEVEL runs one test, and prints a line.
#
# A test is built as GCC's own scripts do it, with a stack of 1 MB on which instructions may lie. What is built stands
# in $GUESTS/torture, and is used again.
set -u
# $checks and $top are those of outside.sh.
# shellcheck disable=SC2154
. "$checks/outside/linking.sh"
. "$top/programs/c/guests.sh"
set +e
tests=$GUESTS/sources/torture
stack='-Wl,--defsym=__stack_size=1048576,--defsym=__stack_rights=7'

# The switches that a test wants on every processor: they stand in it, or in a file of its own, or are those of its folder.
switches() {
    sed -n 's/.*dg-\(additional-\)*options {* *"\([^"]*\)" *}.*/\2/p' "$1"
    [ ! -e "${1%.c}.x" ] || sed -n 's/^[a-z]* additional_flags //p' "${1%.c}.x" | tr -d '"'
    case $1 in
        */ieee/*) echo -fno-inline ;;
        */builtins/*)
            echo -fno-tree-dse -fno-tree-loop-distribute-patterns -fno-tracer -fno-ipa-ra -fno-inline-functions
            ;;
    esac
}

# The files of a test: those of `builtins` come with a library of their own.
files() {
    echo "$1"
    case $1 in
        */builtins/*) echo "${1%.c}-lib.c $tests/builtins/lib/main.c" ;;
    esac
}

# build_test NAME LEVEL PLACE: builds a test for the machine, as PLACE/init, and for Linux, as PLACE/linux.
build_test() {
    [ ! -e "$3/linux" ] || return 0
    source=$tests/$1.c
    # shellcheck disable=SC2046,SC2086
    (cd "$3" && timeout 300 "$top/programs/c/xvcc" -w $2 $(switches "$source") -c $(files "$source")) &&
        "$top/programs/c/xvcc" "$stack" "$3"/*.o -lm -o "$3/init" &&
        link_for_linux "$stack" "$3"/*.o -lm -o "$3/linux"
}

# run_test NAME LEVEL: prints whether it ends well in both ways.
run_test() {
    place=$GUESTS/torture/$(echo "$1$2" | tr / -)
    mkdir -p "$place"
    build_test "$1" "$2" "$place" 2>"$place/errors" || { echo "$1 $2 isn't built"; return; }
    timeout 60 "$XV_RUN" --frames 8192 --rounds 10000 --quantum 100000 "$place/init" </dev/null >"$place/here" 2>&1
    here=$?
    timeout 60 qemu-riscv64 "$place/linux" </dev/null >"$place/there" 2>&1
    there=$?
    case $here,$there in
        0,0) echo "$1 $2 same" ;;
        0,*) echo "$1 $2 ends well here, and with $there by QEMU" ;;
        *,0) echo "$1 $2 ENDS WITH $here here, and well by QEMU" ;;
        *) echo "$1 $2 fails in both: $here here, $there by QEMU" ;;
    esac
}

# Fetches the tests into $GUESTS/sources/torture.
fetch_torture() {
    [ ! -d "$tests" ] || return 0
    update_lists
    (
        cd "$GUESTS/sources"
        own_apt download gcc-12-source
        dpkg-deb --fsys-tarfile gcc-12-source_*.deb | tar -x --wildcards -O '*/gcc-12.*.tar.xz' >gcc.tar.xz
        mkdir -p unpacked
        tar -xf gcc.tar.xz -C unpacked --wildcards '*/testsuite/gcc.c-torture/execute/*'
        mv unpacked/*/gcc/testsuite/gcc.c-torture/execute torture
        rm -r unpacked gcc.tar.xz
    )
}

if [ $# = 2 ]; then
    run_test "$1" "$2"
    exit
fi
fetch_torture
for level in $LEVELS; do
    begin=$(date +%s)
    told=$GUESTS/told$level
    # shellcheck disable=SC2010
    (cd "$tests" && ls ./*.c ieee/*.c builtins/*.c | grep -v -- '-lib\.c$' | sed 's/^\.\///; s/\.c$//') |
        xargs -P "$JOBS" -I{} nice "$0" {} "$level" >"$told"
    count=$(wc -l <"$told")
    same=$(grep -c ' same$' "$told")
    grep -v ' same$' "$told" | sort
    echo "torture    $level: $same of $count tests end well, here and by qemu-riscv64, in $(($(date +%s) - begin)) s"
    verdict=same
    ! grep -q 'ENDS WITH' "$told" || verdict=DIFFERS
    echo "torture $level $verdict" >>"$GUESTS/results"
done
