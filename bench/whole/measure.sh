#!/bin/bash
# Measures the whole of xv_run, boot and reading of files included: it proves and builds xv_run, if it isn't built,
# and runs each of these five times, in turn with what it is compared with. A line has the least user and system
# time of the five, in seconds, and that of the other, if there is one, with its ratio to ours.
set -e
here=$(cd "$(dirname "$0")" && pwd)
root=$(cd "$here/../.." && pwd)
. "$root/bench/times.sh"
"$root/xv" --build
xv=$root/crates/xv_run/out/xv_run
work=$(mktemp -d)
trap 'rm -rf "$work"' EXIT

# compare TITLE NAME..: the functions NAME in turn, the first of which is ours.
compare() {
    local title=$1 name
    shift
    for name in "$@"; do : >"$work/$name"; done
    for _ in 1 2 3 4 5; do
        for name in "$@"; do seconds "$name" >>"$work/$name"; done
    done
    local ours
    ours=$(least "$work/$1")
    printf '%s: %s s' "$title" "$ours"
    shift
    for name in "$@"; do
        local other
        other=$(least "$work/$name")
        printf '; %s %s s, %s times ours' "$name" "$other" "$(awk "BEGIN { printf \"%.2f\", $other / $ours }")"
    done
    echo
}

# 150,000,024 instructions of the loop of `pages`: 92 in each of its rounds, and four around it, without the ECALL.
rounds=1630435
mkdir "$work/loop"
"$here/loop.py" "$rounds" xv6 "$work/loop/init"
rustc --edition 2021 -O -o "$work/interpreter" "$here/../pages/plain.rs"
rustc --edition 2021 -O -o "$work/jumps" "$here/dispatch.rs"
rustc --edition 2021 -O -o "$work/fused" "$here/fused.rs"
ours() { "$xv" --rounds 1000000 --quantum 1000 "$work/loop/init"; }
plain() { "$work/interpreter" "$rounds"; }
dispatch() { "$work/jumps" "$rounds"; }
by_one() { "$work/fused" 1 "$rounds"; }
by_two() { "$work/fused" 2 "$rounds"; }
by_three() { "$work/fused" 3 "$rounds"; }
untraced() { ours; }
traced() { "$xv" --rounds 1000000 --quantum 1000 --trace 65536 "$work/loop/init"; }
others=(plain dispatch by_one by_two by_three)
if command -v qemu-riscv64 >/dev/null; then
    "$here/loop.py" "$rounds" linux "$work/linux"
    chmod +x "$work/linux"
    jit() { qemu-riscv64 "$work/linux"; }
    others+=(jit)
fi
compare "150,000,024 instructions" ours "${others[@]}"
compare "the same, with a trace of 65,536 notes" traced untraced

rustc --edition 2021 -O -o "$work/copied" "$here/copies.rs"
pipe() { "$xv" --rounds 1000000 --quantum 100000 "$here/pipe/init.s"; }
# The same, but that each write and each read names all that is left of the 1 MB.
mkdir "$work/at-once"
sed 's/lui a2, 1$/mv a2, s4/' "$here/pipe/init.s" >"$work/at-once/init.s"
pipe_at_once() { "$xv" --rounds 1000000 --quantum 100000 "$work/at-once/init.s"; }
copies() { "$work/copied" 400; }
compare "400 times 1 MB through a pipe, by writes and reads of a page" pipe copies
compare "the same by writes of 1 MB" pipe_at_once copies

sleepers() { "$xv" --frames 1024 --rounds 100000 --quantum 1000 "$here/sleepers/init.s"; }
console() { "$xv" --rounds 1000000 --quantum 1000 "$here/console/init.s"; }
compare "100,000 rounds of 64 sleepers" sleepers
compare "1 MB to the console" console
