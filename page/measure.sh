#!/bin/bash
# measure.sh [TIMES]: how fast the page is, in each browser that is here, beside xv_run if that is built: the first picture,
# boot, instructions and steps back a second, and frames a second with 64 processes, each so often (3). It takes two
# minutes, and wants a host that does nothing else. It needs node and a browser (Debian's nodejs, chromium and
# firefox-esr). The status is 0 if the best of each is within its bound in Chromium.
set -u
cd "$(dirname "$(readlink -f "$0")")" || exit 2
command -v node >/dev/null || { echo "measure.sh: there is no node: apt-get install nodejs" >&2; exit 2; }
status=2
if command -v chromium >/dev/null; then
    node try/measure.mjs nektavoly.html "${1-3}"
    status=$?
else
    echo "measure.sh: there is no chromium: apt-get install chromium" >&2
fi
if command -v firefox-esr >/dev/null; then
    BROWSER=firefox node try/measure.mjs nektavoly.html "${1-3}"
else
    echo "measure.sh: there is no firefox-esr: apt-get install firefox-esr" >&2
fi

# The same loop by the program: 200 million instructions.
program=../crates/xv_run/out/xv_run
[ ! -d ../libexec ] || program=../libexec/xv_run
if [ -x "$program" ]; then
    room=$(mktemp -d)
    trap 'rm -rf "$room"' EXIT
    printf '  lui t0, 0x8000\nagain:\n  addi t0, t0, -1\n  bne t0, x0, again\n' >"$room/init.s"
    for ((k = 0; k < ${1-3}; k++)); do
        from=$(date +%s%N)
        "$program" --rounds 200000 --quantum 1000 "$room/init.s" </dev/null >/dev/null 2>&1
        echo $((200000000000 / ($(date +%s%N) - from)))
    done | sort -n | tail -1 | sed 's/.*/    xv_run itself: & million instructions a second/'
fi
exit "$status"
