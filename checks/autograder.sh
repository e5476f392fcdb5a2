#!/bin/bash
# Tries the autograder for Gradescope in a bare Debian 12, by hand: checks/autograder.sh. The system is laid out as Gradescope's pages
# "Autograder Specifications" and "Technical Details" say: the zip is unpacked into /autograder/source, setup.sh is run once, as root,
# and run_autograder once for each submission, which lies in /autograder/submission. Nothing is installed but what setup.sh does.
#
# It makes the system by debootstrap, and hands in right answers, wrong ones, empty folders, and what means ill: links, pipes, folders for
# files, large files, programs that loop, flood and look for the answers. Each is a line; the status is 0 if all are as they should be.
# It needs root, debootstrap, python3, node and the network, and a minute after the system was made. BARE is a folder with the system:
# it is made if it isn't there, and kept. Without BARE it is removed at the end.
set -u
cd "$(dirname "$0")/.." || exit 2
command -v debootstrap >/dev/null || { echo "autograder.sh: there is no debootstrap: apt-get install debootstrap" >&2; exit 2; }
[ "$(id -u)" = 0 ] || { echo "autograder.sh: only root can make a system" >&2; exit 2; }

room=$(mktemp -d)
bare=$(realpath -m -- "${BARE-$room/bare}")
home=$bare/autograder
# shellcheck disable=SC2317
leave() {
    umount "$bare/proc" 2>/dev/null
    rm -rf --one-file-system "$room"
}
trap leave EXIT

failed=0
# Says what was tried; it isn't as it should be if the status before was another than 0.
holds() {
    if [ "$1" = 0 ]; then echo "   $2"; else echo "NOT $2"; failed=1; fi
}

[ -d "$bare" ] || debootstrap --variant=minbase bookworm "$bare" >"$room/log" 2>&1 || { tail -5 "$room/log"; exit 2; }
mount -t proc proc "$bare/proc" || exit 2
cp -L /etc/resolv.conf "$bare/etc/resolv.conf"

# Makes the system's /autograder for the exercise $1.
lay_out() {
    printf 'id,email,folder\ns1,anna@example.org,anna\ns2,bela@example.org,bela\nright,cleo@example.org,right\n' >"$room/roster.csv"
    rm -f "$room/autograder.zip"
    node anywhere/marks.mjs gradescope "programs/course/exercises/$1.toml" --to "$room/autograder.zip" --roster "$room/roster.csv" || exit 2
    rm -rf "$home" && mkdir -p "$home/source" "$home/results"
    python3 -B -m zipfile -e "$room/autograder.zip" "$home/source"
    chmod +x "$home/source/setup.sh" "$home/source/run_autograder"
    cp "$home/source/run_autograder" "$home/run_autograder"
}

# Hands in the folder $1 as the user of the email $2, and prints `STATUS POINTS OF` and what the first open test that fails says.
hand_in() {
    rm -rf "$home/submission" "$home/results"
    mkdir "$home/results"
    cp -a "$1" "$home/submission"
    printf '{"id": 1, "users": [{"email": "%s", "sid": null, "name": "A student"}]}' "$2" >"$home/submission_metadata.json"
    chroot "$bare" env -i PATH=/usr/sbin:/usr/bin:/sbin:/bin timeout 300 /autograder/run_autograder >"$room/out" 2>"$room/err"
    python3 -B - "$?" "$home/results/results.json" <<'END'
import json, sys
status, path = sys.argv[1:]
try:
    told = json.load(open(path))
except (OSError, ValueError) as error:
    sys.exit(print(f"{status} none: {error}"))
tests = told["tests"]
open_ones = [it["output"] or it["name"] for it in tests if it["visibility"] == "visible" and it["status"] == "failed"]
print(status, sum(it["score"] for it in tests), sum(it["max_score"] for it in tests), *open_ones[:1])
END
}

# Tries the submission $1 of $2, which is to be told as $3, a pattern; $4 says what it is.
try_one() {
    local told
    told=$(hand_in "$1" "$2")
    # shellcheck disable=SC2254
    case $told in $3) holds 0 "$4: $told" ;; *) holds 1 "$4: $told, and not $3; $(tail -2 "$room/err")" ;; esac
}

# A folder with a program of one text.
made() {
    rm -rf "$room/made" && mkdir "$room/made"
    [ $# = 0 ] || printf '%b' "$1" >"$room/made/init.s"
}

lay_out 3-chain
chroot "$bare" sh /autograder/source/setup.sh >"$room/setup" 2>&1
holds $? "setup.sh: $(chroot "$bare" sh -c 'command -v node && node --version' | tr '\n' ' ')"
chroot "$bare" sh /autograder/source/setup.sh >"$room/setup" 2>&1
holds $? "setup.sh once more"

answers=checks/grading/answers
for it in "$answers"/3-chain/right*; do try_one "$it" anna@example.org '0 10 10' "3-chain, ${it##*/}"; done
for it in "$answers"/3-chain/wrong* "$answers"/3-chain/fake*; do try_one "$it" bela@example.org '0 [0-2] 10*' "3-chain, ${it##*/}"; done
made
try_one "$room/made" anna@example.org '0 0 10 no file init.s or init*' 'an empty folder'
try_one "$room/made" eve@example.org "0 0 10 You aren't in the course's roster*" 'who is in no roster'
made '' && try_one "$room/made" anna@example.org '0 0 10 *' 'an empty file'
made && ln -s /autograder/source/autograder.json "$room/made/init.s"
try_one "$room/made" anna@example.org '0 0 10 *' 'a link to the answers'
made && mkfifo "$room/made/init.s" && try_one "$room/made" anna@example.org '0 0 10 *' 'a pipe that nobody writes into'
made && mkdir "$room/made/init.s" && try_one "$room/made" anna@example.org '0 0 10 *' 'a folder for a file'
made && mknod "$room/made/init.s" c 1 5 && try_one "$room/made" anna@example.org '0 0 10 *' 'a device without an end'
made && head -c 200000000 /dev/zero >"$room/made/init" && try_one "$room/made" anna@example.org '0 0 10 *' 'a file of 200 MB'
made 'again:\n  j again\n' && try_one "$room/made" anna@example.org '0 0 10*' 'a program that loops'
made '  la a0, name\n  li a1, 1\n  li a7, 15\n  ecall\nagain:\n  li a0, 0\n  la a1, name\n  li a2, 7\n  li a7, 16\n  ecall\n  j again\n.data\nname: .asciz "console"\n'
try_one "$room/made" anna@example.org '0 0 10*' 'a program that floods'
made '  la a0, name\n  li a1, 0\n  li a7, 15\n  ecall\n  li a7, 2\n  ecall\n.data\nname: .asciz "/autograder/source/autograder.json"\n'
try_one "$room/made" anna@example.org '0 0 10*' 'a program that opens the answers'
made '  li a0, 0\n' && for name in node marks.mjs run_autograder results.json package.json; do
    printf '#!/bin/sh\necho mine >/autograder/results/results.json\n' >"$room/made/$name" && chmod +x "$room/made/$name"
done
try_one "$room/made" anna@example.org '0 0 10*' 'files by the names of the grader'
made '  li a0, 0\n' && python3 -B -c "
import os, sys
os.chdir(sys.argv[1])
for name in (b'a\nb', b'\xff\xfe', b'-rf', b'\$(touch owned)', b'x' * 250): open(name, 'w').close()" "$room/made"
try_one "$room/made" anna@example.org '0 0 10*' 'names that are none'
[ -z "$(find "$bare/autograder" "$bare/root" -name owned)" ]
holds $? 'no name was a command'

lay_out 15-shell
for it in "$answers"/15-shell/right* "$answers"/15-shell/fake-the-shell-that-is-there; do
    case $it in *right*) wanted='0 10 10' ;; *) wanted='0 [0-2] 10*' ;; esac
    try_one "$it" anna@example.org "$wanted" "15-shell, ${it##*/}"
done
lay_out 2-pages
try_one "$answers/2-pages/right" cleo@example.org '0 6 6' '2-pages, right'
try_one "$answers/2-pages/right" anna@example.org "0 2 6 there is no line *" '2-pages, the numbers of somebody else'
exit "$failed"
