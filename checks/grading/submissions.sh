#!/bin/bash
# Makes the submissions that run.sh grades: submissions.sh FOLDER, in FOLDER/all. They are for exercise 4, a pipe that hangs: right ones,
# wrong ones, and hostile ones, by their files or by their names.
set -eu
export LC_ALL=C
mkdir -p "$1/all"
cd "$1/all"

# A submission of this name, whose init.s comes from standard input.
put() {
    mkdir -p "./$1"
    cat >"./$1/init.s"
}

# The program, mended or not. Its parts: what the parent does behind the fork, what the child does before it writes, so many
# instructions that do nothing, and the status with which init exits.
program() {
    local parent=$1 child=$2 idle=$3 status=$4 k
    printf '  addi a0, sp, -16\n  li a7, 4\n  ecall\n  li a7, 1\n  ecall\n  beq a0, x0, child\n'
    for ((k = 0; k < idle; k++)); do printf '  addi t0, t0, 1\n'; done
    printf '%b' "$parent"
    printf '  li s0, 0\nagain:\n  lw a0, -16(sp)\n  addi a1, sp, -32\n  li a2, 1\n  li a7, 5\n  ecall\n  beq a0, x0, end\n'
    printf '  addi s0, s0, 1\n  j again\nend:\n  %s\n  li a7, 2\n  ecall\nchild:\n' "$status"
    printf '%b' "$child"
    printf '  lw a0, -12(sp)\n  addi a1, sp, -16\n  li a2, 3\n  li a7, 16\n  ecall\n  li a0, 0\n  li a7, 2\n  ecall\n'
}

# The calls that close an end: that for writes lies at sp - 12, and that for reads at sp - 16.
closes_write='  lw a0, -12(sp)\n  li a7, 21\n  ecall\n'
closes_read='  lw a0, -16(sp)\n  li a7, 21\n  ecall\n'
waits='  li a0, 0\n  li a7, 3\n  ecall\n'
asks='  li a7, 11\n  ecall\n'
exits='mv a0, s0'

# ---- right: 100
for ((k = 0; k < 20; k++)); do
    n=$(printf '%02d' $k)
    program "$closes_write" '' $((k * 3)) "$exits" | put "right-plain-$n"
    program "$closes_write" "$closes_read" $((k * 5)) "$exits" | put "right-closes-one-more-$n"
    program "$closes_write$asks" "$asks$asks" $k "$exits" | put "right-asks-more-$n"
    program "$waits$closes_write" '' $((k * 2)) "$exits" | put "right-waits-first-$n"
    program "$asks$closes_write$closes_write" "$closes_read" $k "$exits" | put "right-closes-twice-$n"
done

# ---- wrong: 60
for ((k = 0; k < 10; k++)); do
    program '' '' $((k * 7)) "$exits" | put "wrong-hangs-$k"
    program "$closes_read" '' $((k * 2)) "$exits" | put "wrong-closes-the-other-end-$k"
    program "$closes_write" '' $k "li a0, $((k + 4))" | put "wrong-status-$k"
    printf '  li a0, 3\n  li a7, 2\n  ecall\n' | put "wrong-exits-at-once-$k"
    { program "$closes_write" '' $k "$exits" | sed 's/^again:/again:\n  addi t1, t1, 1\n  j again/'; } | put "wrong-loops-$k"
    { program "$closes_write" '' $k "$exits" | sed 's/^  li s0, 0/  li s0, 0\n  sd s0, 0(x0)/'; } | put "wrong-faults-$k"
done

# ---- hostile by their names: 20, all right
while IFS= read -r -d '' name; do
    program "$closes_write" '' 1 "$exits" | put "$name"
done < <(printf '%s\0' 'Müller, Anna' "O'Brien \"Pat\"" $'new\nline' $'tab\there' ' leading blank' 'trailing blank ' '-rf' '--work' \
    '*' '$(touch owned)' '`touch owned`' '; touch owned' '| touch owned' '> owned' $'not UTF-8: \xff\xfe' '=1+1' '<b>&amp;' \
    $'\x1b[31mred' '..hidden' "$(printf 'long%.0s' {1..60})")

# ---- hostile by their files: 29
program "$closes_write" '' 1 "$exits" >../outside.s
mkdir -p link-to-a-host-file link-to-a-right-file fifo folder-as-file sparse-and-large empty no-file
ln -sf /etc/passwd link-to-a-host-file/init.s
ln -sf ../../outside.s link-to-a-right-file/init.s
ln -sfn /etc link-as-submission
ln -sfn right-plain-00 link-to-another-submission
[ -p fifo/init.s ] || mkfifo fifo/init.s
mkdir -p folder-as-file/init.s
truncate -s 2000000000 sparse-and-large/init.s
: >empty/init.s
: >no-file/README
printf 'a text\n' >plain-file-as-submission
printf '\300\n' | put not-text
printf '  li a0, 3\n  jump nowhere\n' | put no-such-word
mkdir -p elf-that-ends elf-of-another-machine no-elf
printf '\177ELF' >elf-that-ends/init
{ printf '\177ELF\2\1\1\0\0\0\0\0\0\0\0\0\2\0\76\0\1\0\0\0' && head -c 4096 /dev/zero; } >elf-of-another-machine/init
printf '#!/bin/sh\ntouch owned\ncat /etc/passwd\n' >no-elf/init
printf 'again:\n  li a7, 1\n  ecall\n  j again\n' | put fork-bomb
printf 'again:\n  li a0, 4096\n  li a7, 12\n  ecall\n  j again\n' | put grows-for-ever
printf 'again:\n  li a0, 15728640\n  li a7, 12\n  ecall\n  li a0, -15728640\n  li a7, 12\n  ecall\n  j again\n' | put grows-and-shrinks-for-ever
printf 'again:\n  li a7, 11\n  ecall\n  j again\n' | put calls-for-ever
printf '  li a0, 1000000000\n  li a7, 13\n  ecall\n' | put sleeps-for-ever
printf '  la a0, name\n  li a1, 1\n  li a7, 15\n  ecall\nagain:\n  li a0, 0\n  la a1, name\n  li a2, 60000\n  li a7, 16\n  ecall\n  j again\n.data\nname: .asciz "console"\n.space 60000\n' | put floods-the-console
printf '  la a0, name\n  li a1, 1\n  li a7, 15\n  ecall\n  li a0, 0\n  la a1, text\n  li a2, 21\n  li a7, 16\n  ecall\n  li a0, 3\n  li a7, 2\n  ecall\n.data\nname: .asciz "console"\ntext: .byte 27, 91, 50, 74, 27, 93, 48, 59, 120, 7, 0, 255, 254, 128, 13, 10, 60, 62, 38, 34, 39\n' | put shows-control-characters
printf '  li a0, 1\n  li a7, 6\n  ecall\n' | put kills-itself
printf '  la a0, name\n  li a1, 0\n  li a7, 15\n  ecall\n  mv s0, a0\n  li a0, 3\n  li a7, 2\n  ecall\n.data\nname: .asciz "/etc/passwd"\n' | put opens-a-host-file
printf '  la a0, name\n  li a1, 0\n  li a7, 7\n  ecall\n  li a0, 3\n  li a7, 2\n  ecall\n.data\nname: .asciz "/bin/sh"\n' | put runs-a-host-program
program "$closes_write" '' 1 "$exits" | sed 's/$/\r/' | put carriage-returns
{ printf '\357\273\277' && program "$closes_write" '' 1 "$exits" | sed 's/$/\r/'; } | put byte-order-mark
printf '\357\273\277 \r\n\r\n' | put blanks-alone
{ program "$closes_write" '' 1 "$exits" && head -c 300000 /dev/zero | tr '\0' '#'; } | put one-very-long-line
mkdir -p hard-link
ln -f ../outside.s hard-link/init.s
