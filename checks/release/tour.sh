#!/bin/bash
# What a new user of a release does, one thing after another, for release.sh: tour.sh NAME HOW, where NAME.tar.gz and
# NAME-teacher.tar.gz lie. A line for each; the status is 0 if all are as they should be. HOW says on which host:
#
#   native   a host for which the programs were built, without Node
#   node     a host for which they weren't, with Node: the programs in libexec/ don't start
#   alone    a host that has Node and no other command, not even a shell
set -u
export LC_ALL=C
name=$1
how=$2
bad=0

# Says what is so, or isn't.
so() {
    if [ "$1" = 0 ]; then
        echo "    $2"
    else
        echo "NOT $2"
        bad=$((bad + 1))
    fi
}

# Runs a command, and says whether its output has a line that fits a pattern of grep -E.
has() {
    local words=$1 pattern=$2 told
    shift 2
    told=$("$@" 2>&1)
    grep -qE -- "$pattern" <<<"$told"
    local status=$?
    so "$status" "$words"
    [ "$status" = 0 ] || tail -5 <<<"$told"
}

# Types lines at a terminal of their own: the command is the first word.
at_terminal() {
    (sleep "${PATIENCE-2}"; printf '%b' "$2"; sleep "${PATIENCE-2}") | timeout 60 script -qec "$1" /dev/null
}

# Runs the machine in all ways that a student has.
look_around() {
    has 'the shell at a terminal' '1 1 6' at_terminal './xv programs/bin/*' 'echo hello | wc\nexit\n'
    has 'Ctrl-C at a terminal, and why nobody goes on' 'only process 1 can write' at_terminal './xv programs/course/hang/init.s' '\003quit\n'
    has 'the shell by a pipe' '^1 2 12' sh -c 'printf "echo hello world | wc\nexit\n" | ./xv programs/bin/init programs/bin/sh programs/bin/echo programs/bin/wc'
    has 'why a process ended' 'store to 0x.*may not be written' sh -c 'echo null | ./xv --why --rounds 2000 checks/why/null.s programs/bin/init programs/bin/sh'
    has 'the kernel calls' 'fork\(\) = 2' ./xv --explain --quantum 20 --rounds 40 programs/examples/fork/init.s
    has 'a picture' '</svg>' ./xv --picture --rounds 20 --quantum 50 programs/examples/pipeline/init.s
    has 'the debugger, forth and back' 'sleeps' sh -c 'printf "until call wait\nps\nback\nregs\n" | ./xv --debug programs/examples/fork/init.s'
    has 'GDB is answered' 'PacketSize=' sh -c "printf '\$qSupported#37' | ./xv --gdb programs/examples/fork/init.s | tr -d '\000'"
}

# Grades the class of the manual by the command in the arguments.
grade_class() {
    rm -rf grade-work
    "$@" programs/course/grading/children.toml programs/course/grading/submissions/* >graded.csv 2>graded.errors
    has 'grading: right' '^anna,6,6,right,$' cat graded.csv
    has 'grading: a fault with its line' '^chris,1,6,fault,.*line 14' cat graded.csv
    has 'grading: a name that no file has' '^gero,0,6,refused' cat graded.csv
    edgar=$(grep -l '^edgar' grade-work/children/jobs/*/name)
    has 'grading: a picture of a run that waits' 'process 1[^<]*asleep' cat "${edgar%/name}/out/picture-1.svg"
}

# All that is printed is as it is stored.
run_checks() {
    for check in sessions why terminal debugger; do
        has "checks/$check/run.sh" '(are as they should be|0 of them differ)' env PATIENCE=120 "checks/$check/run.sh"
    done
}

# Each program in bin/ knows what it was built of.
ask_versions() {
    for program in bin/*; do
        has "$program --version has the version, the commit and the kit" "^${program#bin/} of Nektavoly $(cat VERSION) commit [0-9a-f]{40} of [-0-9]{10} rattle-kit-.*logic" \
            sh -c "$program --version | tr '\n' ' '"
    done
}

# Runs the first program by the command in the arguments.
says_hi() {
    [ "$("$@" programs/examples/hello/init.s </dev/null)" = hi ]
    so $? "from $from_what to 'hi' in $((($(date +%s%N) - from) / 1000000)) ms"
}

# The archive's files, with programs in libexec/ that don't start: they ask for a loader that isn't there, as on a Linux with
# another C library.
untar_for_another_host() {
    has "there is Node: $(node --version)" '^v(1[89]|[2-9][0-9])' node --version
    tar xf "$name.tar.gz" && cd "$name" || exit 2
    sed -i 's|/lib64/ld-linux-x86-64|/lib64/ld-other-x86-64|' libexec/xv_run libexec/xv_tools
    ! libexec/xv_run --help >/dev/null 2>&1
    so $? "the programs in libexec/ don't start"
    from=$(date +%s%N) from_what='the files'
}

# A program in C, without a compiler of the host, by the command in the arguments: what it prints, and its mistakes.
compile_c() {
    mkdir -p ../c
    printf '#include <stdio.h>\nint main(int count, char *texts[])\n{\n    printf("%%d %%s\\n", 6 * count, texts[0]);\n}\n' >../c/my.c
    printf 'int main(void)\n{\n    return y;\n}\n' >../c/wrong.c
    has 'a program in C, compiled and run' '^18 my$' "$@" --run ../c/my.c -- one two
    has 'a mistake in C, with its line' "wrong.c:3: error: 'y' undeclared" "$@" --cc ../c/wrong.c
    has 'whose compiler it is' 'GNU Lesser General Public License' cat programs/c/tcc/out/NOTICE
}

by_node() {
    untar_for_another_host
    says_hi ./xv
    compile_c ./xv
    has './xv --version has the version' "^Nektavoly $(cat VERSION)\$" ./xv --version
    ask_versions
    look_around
    grade_class node anywhere/grade.mjs
    export XV_NODE=yes
    run_checks
    unset XV_NODE
    # A host of another processor, as far as a script sees.
    mkdir ../other && printf '#!/bin/sh\necho Linux aarch64\n' >../other/uname && chmod +x ../other/uname
    has './xv on ARM64' '^hi$' env PATH="$PWD/../other:$PATH" ./xv programs/examples/hello/init.s </dev/null
    has 'bin/xv_run on ARM64' '^hi$' env PATH="$PWD/../other:$PATH" bin/xv_run programs/examples/hello/init.s </dev/null
    rm -r libexec
    has 'without libexec/ all the same' '^hi$' sh -c './xv programs/examples/hello/init.s </dev/null'
    # And without Node a line says what to do.
    mkdir ../few && for tool in sh cat dirname readlink uname sed head awk; do ln -s "$(command -v "$tool")" "../few/$tool"; done
    has 'without Node ./xv names it' 'nodejs' env PATH="$PWD/../few" ./xv programs/examples/hello/init.s
    has 'without Node bin/xv_run names it' 'nodejs' env PATH="$PWD/../few" bin/xv_run programs/examples/hello/init.s
}

# Runs xv by Node, which finds no other command.
alone() {
    env PATH="$PWD/../alone" "$PWD/../alone/node" xv.mjs "$@"
}

by_node_alone() {
    untar_for_another_host
    mkdir ../alone && ln -s "$(command -v node)" ../alone/node
    says_hi alone
    compile_c alone
    has 'the shell by a pipe' '^1 2 12' alone programs/bin/init programs/bin/sh programs/bin/echo programs/bin/wc \
        < <(printf 'echo hello world | wc\nexit\n')
    has 'why nobody goes on' 'only process 1 can write' alone --why --rounds 20 programs/course/hang/init.s
    has 'a picture' '</svg>' alone --picture --rounds 20 --quantum 50 programs/examples/pipeline/init.s
    has 'the debugger, forth and back' 'sleeps' alone --debug programs/examples/fork/init.s \
        < <(printf 'until call wait\nps\nback\nregs\n')
}

# The commands of the course, as they are written: 3 and 4 tell of init's status, and of rounds that are over.
run_course() {
    local line status lines=0
    while IFS= read -r line; do
        timeout 60 sh -c "$line" </dev/null >told 2>&1
        status=$?
        case $status in 0 | 3 | 4) ;; *) so 1 "status $status: $line" && tail -5 told ;; esac
        lines=$((lines + 1))
    done < <(sed -n 's/^    \(\.\/xv .*\)/\1/p' docs/COURSE.md | grep -v 'mine/\|--build\|QUANTUM')
    so "$((lines < 10))" "$lines commands of the course were run"
}

# As a teacher may have put it for all: in a folder with a blank in its name, and nobody may write there.
from_a_folder_for_all() {
    mkdir "../for all" && tar xf "../$name.tar.gz" -C "../for all" && chmod -R a-w "../for all/$name"
    cd "../for all/$name" || exit 2
    has 'in a folder with a blank that cannot be written' '^hi$' sh -c './xv programs/examples/hello/init.s </dev/null'
    has 'the shell at a terminal there' '1 1 6' at_terminal './xv programs/bin/*' 'echo hello | wc\nexit\n'
    has 'the debugger there' 'init\.s:10' sh -c 'printf "until call fork\n" | ./xv --debug programs/examples/pipeline/init.s'
    has 'grading there' '^anna,6,6,right,$' programs/course/grade.sh --work ../work programs/course/grading/children.toml \
        programs/course/grading/submissions/*
    has 'a picture there' '</svg>' ./xv --picture --rounds 20 --quantum 50 programs/examples/pipeline/init.s
    cd "../../$name" || exit 2
    chmod -R u+w "../for all" && rm -r "../for all"
}

with_the_teachers() {
    (cd .. && tar xf "$name-teacher.tar.gz")
    sha256sum --quiet -c SHA256SUMS-teacher
    so $? "all sums of the teacher's archive are as SHA256SUMS-teacher has them"
    for check in sessions debugger; do
        told=$(PATIENCE=120 "checks/$check/run.sh" | tail -n 1)
        [[ $told == *"are as they should be"* ]]
        so $? "with the teacher's: $told"
    done
    programs/course/grade.sh programs/course/exercises/3-chain.toml checks/grading/answers/3-chain/* >graded.csv 2>graded.errors
    cmp -s graded.csv checks/grading/stored/3-chain.csv
    so $? "an exercise of the course is graded as stored"
}

natively() {
    ! command -v node >/dev/null || so 1 "there is no node"
    from=$(date +%s%N) from_what='the archive'
    tar xf "$name.tar.gz" && cd "$name" || exit 2
    says_hi ./xv
    sha256sum --quiet -c SHA256SUMS
    so $? "all sums are as SHA256SUMS has them"
    has './xv --status names the builds proved' '^xv: a release: .*proved builds$' ./xv --status
    has './xv --version has the version' "^Nektavoly $(cat VERSION)\$" ./xv --version
    ask_versions
    has './xv --help' '^Usage: xv' ./xv --help
    look_around
    grade_class programs/course/grade.sh
    run_course
    run_checks
    from_a_folder_for_all
    with_the_teachers
}

for tool in cc gcc clang rustc rt python3 parallel npm; do
    ! command -v "$tool" >/dev/null || so 1 "there is no $tool"
done
so 0 "there is no compiler, no kit, no python3"
case $how in
    native) natively ;;
    node) by_node ;;
    alone) by_node_alone ;;
    *)
        echo 'usage: tour.sh NAME native|node|alone' >&2
        exit 2
        ;;
esac
[ "$bad" = 0 ]
