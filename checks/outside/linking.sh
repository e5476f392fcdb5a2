# shellcheck shell=sh disable=SC2154
# Linking for Linux, for ../outside.sh.

# What begins a program for Linux, in place of the machine's start file.
build_linux_start() {
    mkdir -p "$GUESTS/linux"
    for part in linux.S linux.c; do
        "$top/programs/c/xvcc" -Os -Wall -Wextra -I"$top/programs/c/picolibc" -c "$checks/outside/$part" \
            -o "$GUESTS/$part.o"
    done
    riscv64-unknown-elf-ld -r -o "$GUESTS/start.o" "$GUESTS/linux.S.o" "$GUESTS/linux.c.o"
}

link_for_linux() {
    "$top/programs/c/xvcc" -nostartfiles -Wl,-z,max-page-size=4096,--defsym=__base=0x100000 "$GUESTS/start.o" "$@"
}

# guests.sh calls this with each program's name and objects.
link_too() {
    to=$GUESTS/linux/$1
    shift
    link_for_linux "$@" -lm -o "$to"
}
