#!/bin/sh
# from_nothing.sh: what a student without gcc does, with Node alone and in a folder of its own: exercises 5, 15 and 16 of the course, and
# pingpong. Each source is written with three mistakes, which `xv --cc` tells with their lines; they are mended one after another, each
# time the rest is told; then it is run, and handed in: `xv --check` finds nothing that is missing, and the grader gives all points.
# Pingpong and the shell are stepped through by lines forth and back in the debugger, with their calls and variables. It needs what programs/c/tcc/build.sh makes, in the folder
# XV_TCC or in programs/c/tcc/out, and the answers of checks/grading. Run it in a bare Debian, where nothing else is. The status is 1 if
# something is otherwise.
set -u
top=$(cd "$(dirname "$0")/../.." && pwd) || exit 2
work=$(mktemp -d) && trap 'rm -rf "$work"' EXIT
cd "$work" || exit 2
failed=0

fail() {
    echo "from_nothing: $*"
    failed=1
}

xv() {
    node "$top/xv.mjs" "$@"
}

# The mistakes of $1.c: as many as $2, in these lines.
has_mistakes() {
    told=$(xv --cc "$1.c" 2>&1 | grep -e ': error:' -e 'which no file has' -e 'warning: implicit') && [ -n "$told" ] || fail "$1.c has no mistake, and $2 were planted"
    echo "  $1.c, $2 planted: $(echo "$told" | sed 's/.*\.c:/line /; s/ error://' | tr '\n' ';')"
}

# $1.c gets the right text in place of the wrong one, of the lines of the file $1.mistakes, `WRONG => RIGHT`, one after another.
write_and_mend() {
    name=$1
    cp "$2" right.c
    cp right.c "$name.c"
    while IFS= read -r line; do
        W=${line%% => *} R=${line##* => } node -e 'const fs = require("fs"), { W, R } = process.env, it = process.argv[1], t = fs.readFileSync(it, "utf8"); if (!t.includes(R)) process.exit(1); fs.writeFileSync(it, t.replace(R, () => W));' "$name.c" || fail "$name.c has no $line"
    done <"$name.mistakes"
    left=$(wc -l <"$name.mistakes")
    while IFS= read -r line; do
        has_mistakes "$name" "$left"
        W=${line%% => *} R=${line##* => } node -e 'const fs = require("fs"), { W, R } = process.env, it = process.argv[1], t = fs.readFileSync(it, "utf8"); fs.writeFileSync(it, t.replace(W, () => R));' "$name.c"
        left=$((left - 1))
    done <"$name.mistakes"
    cmp -s "$name.c" right.c || fail "$name.c isn't what was meant"
    xv --cc -Wall "$name.c" || fail "$name.c isn't compiled"
}

# The debugger's answers to the words $1, of the other files, have each of the texts in standard input, in their order.
shows_in_order() {
    words=$1
    shift
    told=$(printf '%b' "$words" | xv --debug "$top/programs/bin/init" "$@" 2>&1) left=$told
    while IFS= read -r wanted; do
        case $left in
            *"$wanted"*) left=${left#*"$wanted"} ;;
            *) fail "the debugger doesn't show $wanted: $told" ;;
        esac
    done
}

# Handed in as $2 by exercise $1: nothing is missing, and it has all points.
hand_in() {
    mkdir -p class/anna
    cp "$2" "$2.c" class/anna/
    xv --check "$top/programs/course/check/$1.json" class/anna --name anna >check.told 2>&1 || fail "exercise $1: $(tail -n 1 check.told)"
    node "$top/anywhere/grade.mjs" --work "work-$1" "$top/programs/course/exercises/$1.toml" class/anna >grade.csv 2>grade.errors || fail "exercise $1: $(cat grade.errors)"
    node -e 'const [heads, row] = require("fs").readFileSync("grade.csv", "utf8").trim().split("\n").map((it) => it.split(",")), of = (it) => Number(row[heads.indexOf(it)]); console.log(`  ${of("points")} of ${of("of")} points`); process.exit(of("points") === of("of") && of("of") > 0 ? 0 : 1);' || fail "exercise $1 hasn't all points: $(tail -n 1 grade.csv)"
    rm -r class
}

echo 'pingpong'
cat >pp.right <<'END'
#include "kernel/types.h"
#include "user/user.h"

int main(void)
{
    int there[2], back[2];
    char byte = 'x';
    pipe(there);
    pipe(back);
    if (fork() == 0) {
        read(there[0], &byte, 1);
        printf("%d: ping\n", getpid());
        write(back[1], &byte, 1);
        exit(0);
    }
    write(there[1], &byte, 1);
    read(back[0], &byte, 1);
    printf("%d: pong\n", getpid());
    wait(0);
    exit(0);
}
END
cat >pp.mistakes <<'END'
printf("%d: ping\n, getpid()) => printf("%d: ping\n", getpid())
pipe(thre); => pipe(there);
wait(0) => wait(0);
END
write_and_mend pp pp.right
xv --run pp.c </dev/null >told 2>&1
tr '\n' ' ' <told | grep -q '[0-9]: ping [0-9]: pong' || fail "pingpong shows otherwise: $(cat told)"
echo pp >rc
shows_in_order 'break pp.c:16\nc\nuntil pp.c:17\nuntil pp.c:18\nback until pp.c:17\nbt\ninfo locals\nquit\n' "$top/programs/bin/sh" pp rc <<'END'
mark 1 is met
pp.c:17
pp.c:18
pp.c:17
<main+
there = {3, 4}
back = {5, 6}
byte = 120 'x'
END

answers=$top/checks/grading/answers
echo 'exercise 5'
cat >uptime.mistakes <<'END'
"%ld\n, => "%ld\n",
return 0 => return 0;
uptime(3) => uptime()
END
write_and_mend uptime "$answers/5-uptime/right/uptime.c"
hand_in 5-uptime uptime
echo 'exercise 15'
cat >sh.mistakes <<'END'
int pids[PARTS] statuses => int pids[PARTS], statuses
close(form) => close(from)
input = ends[0] => input = ends[0];
END
write_and_mend sh "$answers/15-shell/right/sh.c"
printf 'wc < words\ncat < words | grep a | wc\nexit\n' >rc
printf 'alpha\nbeta\ngamma\n' >words
xv "$top/programs/bin/init" sh "$top/programs/bin/cat" "$top/programs/bin/grep" "$top/programs/bin/wc" rc words </dev/null >told 2>&1
[ "$(tr '\n' ' ' <told)" = '3 3 17 [0] 3 3 17 [0 0 0] ' ] || fail "the shell shows otherwise: $(cat told)"
shows_in_order 'break sh.c:82\nc\nbt\nprint line\nuntil sh.c:83\nprint ends\nback until sh.c:82\nup\ninfo locals\nquit\n' \
    sh "$top/programs/bin/cat" "$top/programs/bin/grep" "$top/programs/bin/wc" rc words <<'END'
mark 1 is met
<run+
<main+
cat < words
sh.c:83
ends = {4, 5}
sh.c:82
sh.c:119
line = "cat < words
next = 37, count = 42
END
hand_in 15-shell sh
echo 'exercise 16'
cp "$top/programs/course/heap/heap.h" .
cat >heap.mistakes <<'END'
piece->nxt = *place; => piece->next = *place;
return NULL => return NULL;
giv((void *) => give((void *)
END
write_and_mend heap "$answers/16-heap/right/heap.c"
hand_in 16-heap heap
[ "$failed" = 0 ] && echo 'pingpong and exercises 5, 15, 16 are done with Node alone, from nothing, and have all points'
exit "$failed"
