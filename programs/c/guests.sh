#!/bin/sh
# Programs that others wrote: fetches their sources by apt, and builds them for the machine by xvcc.
#
#   programs/c/guests.sh lua sqlite ..    some of: lua sqlite duktape awk bzip2 zlib dc. It prints where they stand
#   programs/c/guests.sh --versions       which versions were fetched
#
# Debian 12 has what is needed: gcc-riscv64-unknown-elf, picolibc-riscv64-unknown-elf, dpkg-dev, and for some of them gcc,
# make, bison and tcl. Sources and programs stand in the folder GUESTS, without it /tmp/xv-guests, and are used again.
# Nothing of them is part of the repository. Nothing of the system's settings is changed, and nobody need be root.
#
# checks/outside.sh uses the functions of this file, and sets `top` and `link_too` first.
set -eu
GUESTS=${GUESTS:-/tmp/xv-guests}
JOBS=${JOBS:-2}
[ -n "${top-}" ] || top=$(dirname "$(readlink -f -- "$0")")/../..
export GUESTS JOBS top

need() {
    command -v "$1" >/dev/null || { echo "there is no $1; this mends it: $2" >&2; exit 2; }
}

# apt-get with lists and sources of its own.
own_apt() {
    apt-get -qq -o Dir::State="$GUESTS/apt/state" -o Dir::State::status=/var/lib/dpkg/status \
        -o Dir::Cache="$GUESTS/apt/cache" -o Dir::Etc::SourceList="$GUESTS/apt/list" -o Dir::Etc::SourceParts=- \
        -o APT::Sandbox::User=root "$@"
}

update_lists() {
    [ ! -e "$GUESTS/apt/list" ] || return 0
    mkdir -p "$GUESTS/apt/state/lists/partial" "$GUESTS/apt/cache/archives/partial"
    key='signed-by=/usr/share/keyrings/debian-archive-keyring.gpg'
    for kind in deb deb-src; do
        echo "$kind [$key] http://deb.debian.org/debian bookworm main"
    done >"$GUESTS/apt/list"
    own_apt update || { rm "$GUESTS/apt/list"; return 1; }
}

# Fetches the source of package $1, and unpacks it, as its authors published it, into $GUESTS/sources/$1.
fetch() {
    [ ! -d "$GUESTS/sources/$1" ] || return 0
    need dpkg-source 'apt-get install dpkg-dev'
    update_lists
    (
        cd "$GUESTS/sources"
        own_apt source --download-only "$1"
        dpkg-source --no-check --skip-patches -x "$1"_*.dsc "$1.new" >/dev/null
        mv "$1.new" "$1"
    )
}

show_versions() {
    (cd "$GUESTS/sources" && ls ./*.dsc ./*.deb 2>/dev/null | sed 's/^\.\///; s/\.dsc$//; s/_all\.deb$//')
    dpkg-query -W gcc-riscv64-unknown-elf binutils-riscv64-unknown-elf picolibc-riscv64-unknown-elf
}

# What is done with the objects of program $1 besides: nothing. The other words are the objects.
command -v link_too >/dev/null || link_too() { :; }

# build PROGRAM WORDS -- FILES: compiles the files, in the folder where they stand, and links them.
build() {
    program=$1
    words=
    shift
    while [ "$1" != -- ]; do
        words="$words $1"
        shift
    done
    shift
    objects=$GUESTS/objects/$program
    mkdir -p "$objects"
    # shellcheck disable=SC2016
    printf '%s\n' "$@" | words=$words objects=$objects xargs -P "$JOBS" -I{} sh -c \
        'to="$objects/$(basename "{}" .c).o"
        [ "$to" -nt "{}" ] || nice "$top/programs/c/xvcc" -w $words -c "{}" -o "$to"'
    "$top/programs/c/xvcc" "$objects"/*.o -lm -o "$GUESTS/bin/$program"
    link_too "$program" "$objects"/*.o
}

build_lua() {
    fetch lua5.4
    cd "$GUESTS/sources/lua5.4/src"
    # shellcheck disable=SC2046,SC2010
    build lua -O2 -std=gnu99 -- $(ls ./*.c | grep -v '/luac\.c$')
}

# Its files may be read, and not locked: nobody writes them. What it keeps meanwhile, it keeps in memory.
build_sqlite() {
    need tclsh 'apt-get install tcl'
    fetch sqlite3
    mkdir -p "$GUESTS/sources/sqlite3/one"
    cd "$GUESTS/sources/sqlite3/one"
    [ -e shell.c ] || { ../configure --disable-tcl --disable-readline && make sqlite3.c shell.c; } >made 2>&1
    build sqlite3 -Os -DSQLITE_THREADSAFE=0 -DSQLITE_OMIT_LOAD_EXTENSION -DSQLITE_OMIT_WAL -DSQLITE_TEMP_STORE=3 \
        -DSQLITE_MAX_MMAP_SIZE=0 -DSQLITE_DEFAULT_UNIX_VFS='"unix-none"' -- sqlite3.c shell.c
}

build_duktape() {
    fetch duktape
    cd "$GUESTS/sources/duktape"
    build duk -Os -std=c99 -DDUK_CMDLINE_PRINTALERT_SUPPORT -Isrc -Iextras/print-alert -Iexamples/cmdline \
        -- src/duktape.c examples/cmdline/duk_cmdline.c extras/print-alert/duk_print_alert.c
}

build_awk() {
    need bison 'apt-get install bison'
    fetch original-awk
    cd "$GUESTS/sources/original-awk"
    [ -e proctab.c ] || {
        bison -y -d -b awkgram awkgram.y 2>made
        cc -w -o maketab maketab.c
        ./maketab awkgram.tab.h >proctab.c
    }
    build awk -O2 -- b.c lex.c lib.c main.c parse.c proctab.c run.c tran.c awkgram.tab.c
}

build_bzip2() {
    fetch bzip2
    cd "$GUESTS/sources/bzip2"
    build bzip2 -O2 -- blocksort.c huffman.c crctable.c randtable.c compress.c decompress.c bzlib.c bzip2.c
}

build_zlib() {
    fetch zlib
    cd "$GUESTS/sources/zlib"
    build minigzip -O2 -DHAVE_UNISTD_H -I. -- adler32.c crc32.c deflate.c gzclose.c gzlib.c gzread.c gzwrite.c infback.c \
        inffast.c inflate.c inftrees.c trees.c uncompr.c compress.c zutil.c test/minigzip.c
}

# By its own configure and make.
build_dc() {
    fetch bc
    cd "$GUESTS/sources/bc"
    [ -e Makefile ] || CC="$top/programs/c/xvcc" CFLAGS='-O2 -w' ./configure --host=riscv64-unknown-elf >made 2>&1
    { make -C lib && make -C dc; } >made 2>&1
    cp dc/dc "$GUESTS/bin/dc"
    link_too dc dc/*.o lib/libbc.a
}

mkdir -p "$GUESTS/sources" "$GUESTS/bin"
case ${0##*/} in
    guests.sh) ;;
    *) return 0 ;;
esac
[ "${1-}" = --versions ] && { show_versions; exit; }
for name; do
    (build_"$name")
done
ls -l "$GUESTS/bin"
