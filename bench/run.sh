#!/bin/bash
# Measures one of the programs of this folder: bench/run.sh NAME [WORDS], or bench/run.sh --count NAME FEW MANY [WORDS].
# It proves and builds NAME/program.txt over the crates that NAME/uses names, builds NAME/plain.rs, if
# there is one, by `rustc -O`, and runs both in turn, three times, with these words.
# A folder that has a script of its own, measure.sh, is measured by that.
# With --count it lets valgrind's callgrind count the machine instructions of each with FEW and with MANY as
# the first word, and tells the difference, in which boot cancels.
set -e
here=$(cd "$(dirname "$0")" && pwd)
count=
if [ "$1" = --count ]; then
    count=1
    shift
fi
name=${1:?"which: $(cd "$here" && ls -d */ | tr -d / | tr '\n' ' ')"}
shift
if [ -x "$here/$name/measure.sh" ]; then
    exec "$here/$name/measure.sh" "$@"
fi
work=$(mktemp -d)
mkdir -p "$work/crates/measured/src"
: > "$work/crates.txt"
while read -r crate; do
    cp -r "$here/../crates/$crate" "$work/crates"
    grep "^$crate:" "$here/../crates.txt" >> "$work/crates.txt"
done < "$here/$name/uses"
echo "measured: $(tr '\n' ' ' < "$here/$name/uses")" >> "$work/crates.txt"
cp "$here/$name/program.txt" "$work/crates/measured/src/main.rt"
if [ -d "$here/$name/proofs" ]; then
    (cd "$here/$name" && find proofs -name '*.txt') | while read -r file; do
        mkdir -p "$work/crates/measured/$(dirname "$file")"
        cp "$here/$name/$file" "$work/crates/measured/${file%.txt}.antt"
    done
fi
programs=("$work/crates/measured/out/measured")
if [ -f "$here/$name/plain.rs" ]; then
    rustc --edition 2021 -O -o "$work/plain" "$here/$name/plain.rs"
    programs+=("$work/plain")
fi
(cd "$work/crates/measured" && rt run > "$work/log" 2>&1) || { tail -20 "$work/log"; exit 1; }
. "$here/times.sh"
# One line: the machine instructions, and what the program prints.
counted_and_printed() {
    echo "$(PRINTED=$work/printed counted "$@") $(cat "$work/printed")"
}
if [ -n "$count" ]; then
    few=${1:?"how many rounds at first"}
    many=${2:?"and how many then"}
    shift 2
    for program in "${programs[@]}"; do
        read -r few_counted few_done _ < <(counted_and_printed "$program" "$few" "$@")
        read -r many_counted many_done _ < <(counted_and_printed "$program" "$many" "$@")
        echo "$(basename "$program"): $((many_counted - few_counted)) machine instructions for $((many_done - few_done))"
    done
    rm -r "$work"
    exit
fi
for _ in 1 2 3; do
    for program in "${programs[@]}"; do
        echo "== $(basename "$program")"
        (time -p "$program" "$@") 2>&1
    done
done
rm -r "$work"
