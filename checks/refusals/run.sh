#!/bin/sh
# What xv says of words before a program gets them: the words of each line `$ KIND WORD..` of told.txt are looked at
# in a folder of files, and what is told, and the status, are compared; with the KIND xv, all that is told and shown;
# with serve, what is told of the program that GDB gets. The status is 0 if all is as it should be. With XV_NODE=yes it
# is anywhere/src/ that looks, and else programs/host/.
#
#   checks/refusals/run.sh           compares
#   checks/refusals/run.sh --store   keeps what is told now
#
# XV_RUN is the machine's program.
set -u
here=$(dirname "$(readlink -f -- "$0")")
root=$(cd "$here/../.." && pwd) || exit 2
# shellcheck source=checks/programs.sh
. "$root/checks/programs.sh"
program=${XV_RUN-$(program_path "$root" xv_run)}
needs_program "$program"
program=$(realpath -s -- "$program")
room=$(mktemp -d) || exit 2
writer=
trap 'rm -rf "$room"; [ -z "$writer" ] || kill "$writer" 2>/dev/null' EXIT
mkdir "$room/files" && cd "$room/files" || exit 2

# xv, on this way.
xv() {
    if [ "${XV_NODE-}" = yes ]; then
        node "$root/xv.mjs" "$@"
    else
        XV_AS_BUILT=yes "$root/xv" "$@"
    fi
}

# Looks at words for the kind $1; or if that is `xv`, runs them; or if it is `serve`, serves GDB, which asks for nothing.
looked_at() {
    kind=$1
    shift
    if [ "$kind" = xv ]; then
        xv "$@"
    elif [ "$kind" = serve ]; then
        XV_GDB=true xv --gdb "$@"
    elif [ "${XV_NODE-}" = yes ]; then
        cat >"$room/look.mjs" <<END
import { looked_at } from "$root/anywhere/src/refusals.mjs";
import { parts_of } from "$root/anywhere/src/words.mjs";
const [kind, ...words] = process.argv.slice(2);
const looked = looked_at(kind, parts_of(words), (text) => console.error("xv: " + text));
process.exit(looked.status ?? 0);
END
        node "$room/look.mjs" "$kind" "$@"
    else
        (
            # shellcheck source=programs/host/words.sh
            . "$root/programs/host/words.sh"
            read_table "$root/programs/host"
            # shellcheck source=programs/host/refusals.sh
            . "$root/programs/host/refusals.sh"
            look_at "$kind" "$program" "$@"
        )
    fi
}

mkdir a d '50%'
touch averylongprogram console sh .s source.c größenänderung größenwandel
for n in $(seq 64); do touch "program$n"; done
echo nop >init.s
for copy in a/init.s '50%/init.s' one.s; do cp init.s "$copy"; done
cat >bad.s <<'END'
    nop                     # a good line
    foo a0, 1               # no such word
 here: mv a0                # an operand is missing
here: nop
    j nowhere
    addi a0, a0, 5000
    .data
    addi a0, a0, 5          # not in this section
END
for n in $(seq 25); do echo "wrong$n a0"; done >worse.s
printf 'nop\n\377' >odd.s
head -c 1048577 /dev/zero >big
head -c 1048577 /dev/zero | tr '\0' '#' >big.s
# Heads of ELF files, by their class, the lower byte of e_machine and of e_flags, in octal digits.
head_of() {
    printf '\177ELF%b\001\001' "\\0$1" && head -c 9 /dev/zero && printf '\002\000%b\000' "\\0$2"
    head -c 28 /dev/zero && printf %b "\\0$3" && head -c 15 /dev/zero
}
mkdir other && head_of 002 076 000 >other/init
head_of 002 363 001 >rvc && head_of 001 363 000 >rv32 && head_of 002 363 000 >rv64 && head_of 002 010 000 >mips
mkfifo pipe
head -c 1048577 /dev/zero >pipe &
writer=$!

sed -n 's/^\$ //p' "$here/told.txt" | while IFS= read -r line; do
    echo "$ $line"
    # shellcheck disable=SC2086
    set -- $line
    looked_at "$@" </dev/null 2>&1
    echo "= $?"
done >"$room/all_told"
# a clone says so if its modules are of an earlier state: that is no refusal
sed '/^xv: the modules are of an earlier state than the code here: /d' "$room/all_told" >"$room/told"
if [ "${1-}" = --store ]; then
    cp "$room/told" "$here/told.txt"
    exit
fi
diff "$here/told.txt" "$room/told" || {
    echo 'refusals: what is said is another'
    exit 1
}
echo "refusals: all $(grep -c '^\$ ' "$here/told.txt") are as they should be"
