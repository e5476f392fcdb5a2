#!/bin/sh
# Compares programs that `xv --cc` has compiled with those that gcc has compiled: see README.md. It needs what programs/c/tcc/build.sh makes,
# in the folder XV_TCC or in programs/c/tcc/out, and Node. The status is 1 if something is otherwise, 2 if there is no compiler.
set -u
cd "$(dirname "$(readlink -f -- "$0")")/../.." || exit 2
XV_TCC=$(readlink -f -- "${XV_TCC:-programs/c/tcc/out}")
export XV_TCC
[ -e "$XV_TCC/tcc.wasm" ] || { echo "there is no compiler in $XV_TCC: programs/c/tcc/build.sh makes it" >&2; exit 2; }
work=$(mktemp -d) && trap 'rm -rf "$work"' EXIT
failed=0
mkdir "$work/own" "$work/gcc"

fail() {
    echo "checks/tcc: $*"
    failed=1
}

cc() {
    node xv.mjs --cc "$@"
}

# A refusal: its words are to have the text $1.
refuses() {
    wanted=$1
    shift
    told=$(cc "$@" 2>&1) && fail "$* isn't refused"
    case $told in
        *"$wanted"*) ;;
        *) fail "$* is refused in other words: $told" ;;
    esac
}

for source in programs/c/src/*.c; do
    name=$(basename "$source" .c)
    case $name in crash | tests) continue ;; esac
    cc -Wall "$source" -o "$work/own/$name" || fail "$source isn't compiled"
    cp "programs/bin/$name" "$work/gcc/$name"
done

# What the shell runs, of each set of programs. How storm goes depends on how many instructions a program has.
printf 'abc\nxa b\nzz top\nbanana apple\n' >"$work/text"
printf 'echo in sub | wc\n' >"$work/sub"
cat >"$work/rc" <<'END'
echo hello world | wc
primes 60
pingpong 3
cat text | grep a | sort | head -3
sort text | wc
grep -n x text
head -2 text
ls
help
forks
lazy
sleep 3
kill 99
nothing
sh sub
(echo a; echo b) | sort ; wait
exit 3
END
for set in own gcc; do
    XV_NODE=yes bin/xv_run --frames 8000 "$work/$set"/* "$work/rc" "$work/text" "$work/sub" </dev/null >"$work/$set.told" 2>"$work/$set.errors"
    echo "status $?" >>"$work/$set.told"
done
cmp "$work/own.told" "$work/gcc.told" || fail "the programs do otherwise than gcc's"

cat >"$work/one.c" <<'END'
#include <stdio.h>
#include "two.h"
int main(void) { printf("%d %s\n", twice(21), NAME); return COUNT - 7; }
END
echo 'int twice(int n);' >"$work/two.h"
echo 'int twice(int n) { return 2 * n; }' >"$work/two.c"
(cd "$work" && node "$OLDPWD/xv.mjs" --cc one.c two.c -I. '-DNAME="x"' -DCOUNT=7 -o first) || fail "two files aren't compiled"
cc "$work/one.c" "$work/two.c" -I "$work" '-DNAME="x"' -D COUNT=7 -o "$work/second" || fail "two files aren't compiled by whole paths"
cmp "$work/first" "$work/second" || fail "the same sources give other bytes"

# Beside the module the native compiler.
for source in programs/c/src/sh.c programs/c/src/sort.c; do
    "$XV_TCC/riscv64-tcc" -nostdinc -I"$XV_TCC/include" -c "$source" -o "$work/native.o" 2>/dev/null || continue
    node checks/tcc/object.mjs "$source" >"$work/module.o" && cmp "$work/native.o" "$work/module.o" || fail "the module compiles $source otherwise"
done

# Steps by lines, in an editor and in the debugger; a function whose part of the stack is large has its prologue at its end.
cat >"$work/steps.c" <<'END'
#include <stdio.h>

static int twice(int n)
{
    char room[3000];
    room[0] = n;
    return 2 * room[0];
}

int main(void)
{
    int x = twice(21);
    printf("%d\n", x);
    return 0;
}
END
cc "$work/steps.c" || fail "steps.c isn't compiled"
node checks/tcc/steps.mjs "$work" >"$work/steps.told"
cmp "$work/steps.told" checks/tcc/steps.txt || fail "steps by lines go otherwise"
told=$(printf 'break twice\nc\nquit\n' | node xv.mjs --debug "$work/steps" 2>&1)
case $told in
    *'<twice+0x0>, steps.c:4'*) ;;
    *) fail "the debugger doesn't show the line: $told" ;;
esac

# What debuggers are told: variables of each kind, which are those of gcc's program, if gcc is there; and the same functions and lines in
# both tables.
mkdir "$work/variables" "$work/by_gcc"
cc -Wall checks/tcc/variables.c -o "$work/variables/variables" || fail "variables.c isn't compiled"
checks/tcc/variables.sh "$work/variables" >"$work/variables.told"
cmp "$work/variables.told" checks/tcc/variables.txt || fail "variables are told otherwise"
XV_NODE=yes bin/xv_lines <"$work/variables/variables.debug" | grep -v '^frame' >"$work/variables.debug_lines"
grep -v '^frame' "$work/variables/variables.lines" | cmp - "$work/variables.debug_lines" || fail "NAME.debug has other lines than NAME.lines"
if command -v riscv64-unknown-elf-gcc >/dev/null; then
    cp checks/tcc/variables.c "$work/by_gcc/"
    (cd "$work/by_gcc" && CFLAGS=-O0 "$OLDPWD/programs/c/build.sh" variables.c >/dev/null) || fail "gcc doesn't build variables.c"
    checks/tcc/variables.sh "$work/by_gcc" | sort >"$work/by_gcc.told"
    sort "$work/variables.told" | cmp - "$work/by_gcc.told" || fail "variables are told otherwise than of gcc's program"
fi

# --run: the program's output, its texts, its own shell.
[ "$(node xv.mjs --run "$work/first.c" 2>&1)" = "xv --run: $work/first.c: there is no such file" ] || fail "--run of nothing isn't refused"
cat >"$work/texts.c" <<'END'
#include <stdio.h>
int main(int count, char *texts[]) { for (int k = 0; k < count; k++) puts(texts[k]); return 0; }
END
[ "$(node xv.mjs --run "$work/texts.c" -- one two </dev/null)" = "$(printf 'texts\none\ntwo')" ] || fail "--run gives no texts"
[ ! -e "$work/texts" ] || fail "--run leaves a program"
mkdir "$work/shell"
cp programs/c/src/sh.c "$work/shell/sh.c"
[ "$(echo 'echo a b | wc' | node xv.mjs --run "$work/shell/sh.c" 2>/dev/null | tail -n 2 | head -n 1)" = '1 2 4' ] || fail "--run of an own shell"

# All mistakes of a source at once, by lines.
cat >"$work/several.c" <<'END'
int first(int n)
{
    int x = y + n;
    int a = 3
    x = zz;
    return x + y;
}
int main(void)
{
    struct none it;
    return first(1;
}
END
wanted=$(printf '%s\n' "several.c:3: error: 'y' undeclared" "several.c:4: error: ';' expected at the end (got \"x\" in line 5)" \
    "several.c:5: error: 'zz' undeclared" 'several.c:10: error: unknown type size' "several.c:11: error: ',' expected (got \";\")")
told=$(cd "$work" && node "$OLDPWD/xv.mjs" --cc several.c 2>&1 | grep error:)
[ "$told" = "$wanted" ] || fail "the mistakes are other ones: $told"
refuses "inline assembler isn't there" programs/c/src/tests.c -o "$work/tests"

cat >"$work/open.c" <<'END'
#include <stdio.h>
int main(void)
{
    printf("one\n);
    char it = 'x;
    printf("two\n");
    return zz;
}
END
wanted=$(printf '%s\n' 'open.c:4: error: missing terminating " character' "open.c:5: error: missing terminating ' character" "open.c:7: error: 'zz' undeclared")
told=$(cd "$work" && node "$OLDPWD/xv.mjs" --cc open.c 2>&1 | grep error:)
[ "$told" = "$wanted" ] || fail "texts that aren't ended are told otherwise: $told"

# Such a text behind another mistake, with a call in it.
cat >"$work/behind.c" <<'END'
#include <stdio.h>
int main(void)
{
    first(yy);
    printf("%d\n, printf("two\n"));
    printf("%d\n, getpid(3));
    printf("three\n")
    return 0;
}
END
wanted=$(printf '%s\n' "behind.c:4: error: 'yy' undeclared" 'behind.c:5: error: missing terminating " character' \
    'behind.c:6: error: missing terminating " character' "behind.c:7: error: ';' expected at the end (got \"return\" in line 8)")
told=$(cd "$work" && node "$OLDPWD/xv.mjs" --cc behind.c 2>&1 | grep error:)
[ "$told" = "$wanted" ] || fail "texts that aren't ended behind another mistake are told otherwise: $told"

printf 'int main(void)\n{\n    return y;\n}\n' >"$work/mistake.c"
refuses "mistake.c:3: error: 'y' undeclared" "$work/mistake.c"
refuses '               ^' "$work/mistake.c"
echo 'double half(double n) { return n / 2; } int main(void) { return half(3); }' >"$work/fraction.c"
refuses "float and double aren't there" "$work/fraction.c"
echo 'int f(void); int main(void) { return f(); }' >"$work/missing.c"
refuses 'uses f, which no file has' "$work/missing.c"
echo 'int f(void) { return 0; }' >"$work/alone.c"
refuses 'no file has the function main' "$work/alone.c"
cp "$work/missing.c" "$work/again.c"
refuses 'main is there twice' "$work/missing.c" "$work/again.c"
refuses 'there is no such file' "$work/nothing.c"
refuses 'is C++' "$work/a.cpp"
refuses 'there is no option -fsanitize' -fsanitize "$work/one.c"
refuses 'would overwrite a source' "$work/alone.c" -o "$work/two.c"
refuses 'takes a word behind it' "$work/alone.c" -o
refuses 'no FILE.c' -Wall
[ "$failed" = 0 ] && echo "programs in C by Node's compiler do what gcc's do; mistakes and words that aren't taken are refused"
exit "$failed"
