#!/bin/sh
# many.sh [STOPS [SEED [FILE.c..]]]: programs in C, each by gcc at -O0, -O1, -O2 and -Os and by clang with lld at -O0 and -O2, beside GDB
# at so many random stops (20): calls, lines and values, as calls.sh compares them. Without files kinds.c and fields.c. It tells each
# build, and at the end the sums. A program that waits goes another way under GDB than in the debugger, since ticks come at other events.
set -u
here=$(dirname "$(readlink -f -- "$0")")
stops=${1-20} seed=${2-1}
said=$(mktemp) && trap 'rm -f "$said"' EXIT
if [ $# -gt 2 ]; then shift 2; else set -- "$here/kinds.c" "$here/fields.c"; fi
for program; do
    for switches in -O0 -O1 -O2 -Os '--clang -O0' '--clang -O2'; do
        compiler=${switches%-O*}
        echo "$(basename "$program") $switches"
        # shellcheck disable=SC2086
        STOPS=$stops SEED=$seed MOST=${MOST-0} "$here/calls.sh" $compiler "$program" "-O${switches#*-O}" 2>&1
    done
done | tee "$said"
echo "all:"
python3 -B - "$said" <<'EOF'
import collections, re, sys
sums = collections.Counter()
for line in open(sys.argv[1]):
    if line.startswith(("  |", "    |")):
        continue
    for count, what in re.findall(r"(\d+) ((?:stop|call|function|line|value)s\b)", line):
        sums[f"{what}{' that are the same' if what in ('functions', 'lines', 'values') else ''}"] += int(count)
    other = re.match(r" +(\d+) (.*)", line)
    if other:
        sums[other[2]] += int(other[1])
for what, count in sums.most_common():
    print(f"{count:8} {what}")
EOF
