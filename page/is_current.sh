#!/bin/sh
# is_current.sh [--module | --tell]: whether page/nektavoly.html was built of the sources that stand here, told by their sum; with
# --module, whether its module is of the crates' code. With --tell the status is 0 also if it isn't, and what to do is told. Quick;
# python3 alone.
cd "$(dirname "$(readlink -f "$0")")" || exit 2
sources() {
    python3 -B ../anywhere/build/sources.py .. "$1" || exit 2
}
if [ "${1-}" != --module ] && grep -q "sources $(sources --page) -->" nektavoly.html; then
    echo "page: it is of these sources"
    exit
fi
if grep -q "<!-- module $(sources --module) -->" nektavoly.html; then
    [ "${1-}" != --module ] || { echo "page: its module is of this code"; exit; }
    told="page: its module is of this code, and the rest of an earlier state: page/build.sh --same-module makes it anew, in a second"
else
    told="page: nektavoly.html is of an earlier state: page/build.sh makes it anew"
fi
if [ "${1-}" = --tell ]; then
    echo "$told"
else
    echo "$told" >&2
    exit 1
fi
