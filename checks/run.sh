#!/bin/sh
# The checks beside the proofs: checks/run.sh gives the programs the words that are stored, plays the sessions, also those
# at a terminal and of the debugger, the stored runs, random programs and random words in rows and by single events, the
# reports and the conversations with GDB by the programs that are built, reads the lines of all sources a second time, compares
# why calls are refused with a table of its own, lets the debugger show words as others' disassemblers do, grades submissions and
# makes marks of a class for other systems, runs the commands that the pages show, looks at
# their links, at the cases by name and at the numbers of calls, counts what the proofs can do without, what stands twice, the
# launcher's lines and what has to be believed, hands in answers of labs and compares their signs with labs/NOTATION.md, and
# tells of which state the modules and page/nektavoly.html are, in up to five minutes. The gate does the same after `rt ci`.
# `checks/run.sh --others` tells which other checks there are, how each is called, and how long it takes.
#
# `checks/run.sh --node` plays all of that which needs a program by the modules of anywhere/, with Node in place of the native
# programs, and compares it with the same texts; `checks/run.sh --node --quick` plays the words, the sessions and random words alone. What
# can't be the same by Node has a form of its own, which its check names: how a program gets little memory (checks/words), how
# the debugger gets the lines of sources (checks/debugger), and xv.mjs and anywhere/grade.mjs in place of scripts (checks/why,
# checks/debugger, checks/grading).
#
# PATIENCE is how many seconds one run of a program may take: 60 without it, and 120 with Node. A host that is busy needs more.
set -u
cd "$(dirname "$0")/.." || exit 2

# A check that is run by hand: its path, how it is called, and what it does.
tell() {
    [ ! -e "checks/$1" ] || printf '    %-52s %s\n' "$(echo "checks/$2" | sed 's|^checks/\.\./||')" "$3"
}

tell_others() {
    echo 'Other checks, by hand; the head or the README.md of each says more:'
    tell run.sh 'run.sh --node' 'the same by the modules, with Node in place of the native programs: two minutes; needs nodejs'
    tell run.sh 'run.sh --node --quick' 'the words, sessions and random words alone, by the modules: half a minute; needs nodejs'
    tell since.sh 'since.sh [REV]' 'proves what differs from REV, over what a gate left, and tries its edits: minutes; needs rt'
    tell all-edits.sh 'all-edits.sh [CRATE..]' 'the prover refuses every edit of a body, before a release: an hour or more for all; needs rt'
    tell wrong-bodies/run.sh 'wrong-bodies/run.sh [CRATE..]' 'the prover refuses wrong bodies: minutes a crate, hours for all; needs rt'
    tell wrong-bodies/run.sh 'wrong-bodies/run.sh --definitions [CRATE..]' 'a law, worked case or contract refuses turned definitions: 1 to 10 minutes each'
    tell labs.sh 'labs.sh [NAME..]' 'the labs: right bodies are proved, wrong ones told by a case: 2 to 5 minutes each; needs rt'
    tell labs.sh 'labs.sh --play [NAME..]' 'the labs: all bodies are played, and no right one is called wrong: a minute each; needs rt'
    tell labs.sh 'labs.sh --class' 'a class in which some mean ill: each folder has its row: some minutes; needs rt'
    tell labs.sh 'labs.sh --packs' 'packs for the labs that are spoilt: none is taken: seconds; needs rt'
    tell hostile/run.sh 'hostile/run.sh' 'each refused growth of memory, read and write is answered: a minute'
    tell beside-qemu/run.sh 'beside-qemu/run.sh' '1,000 random programs do what they do under QEMU: some minutes; needs qemu-user'
    tell beside-qemu/run.sh 'beside-qemu/run.sh --steps 10000000' 'as many of them as it takes for ten million instructions: some minutes; needs the same'
    tell beside-disassemblers/run.sh 'beside-disassemblers/run.sh' "all 2^32 words are what GNU's and LLVM's disassemblers say: half an hour; needs packages, told by the script"
    tell outside.sh 'outside.sh kernel' 'each kernel call answers what Linux does under QEMU: a minute; needs packages, told by the script'
    tell rows/run.sh 'rows/run.sh --many 1000 [--seed N]' 'more random programs in rows and by single events: minutes'
    tell rows/wild.sh 'rows/wild.sh --many 800 [--seed N]' 'the same of random words, some 100,000 rows: minutes'
    tell outside.sh 'outside.sh' "others' programs do what they do under QEMU: minutes, with \`torture\` an hour; needs packages, told by the script"
    tell tcc/run.sh 'tcc/run.sh' "programs by the C compiler of programs/c/tcc do what gcc's do: a minute; needs programs/c/tcc/build.sh and nodejs"
    tell tcc/from_nothing.sh 'tcc/from_nothing.sh' "exercises in C, written with Node alone, mended, stepped through and graded: a minute; needs the same"
    tell tcc/torture.mjs 'tcc/torture.mjs FOLDER' "gcc's own tests by that compiler: some minutes; needs the same, and the tests of outside.sh torture"
    tell back-to/run.sh 'back-to/run.sh [N]' 'the stored runs, played back to 20 places each: slow; needs rt'
    tell reasons.py 'reasons.py --refused 20000' "20,000 refused calls have the reasons of a table of its own: some minutes"
    tell release.sh 'release.sh FOLDER' 'a release, tried in a bare Debian 12, natively and by Node: some minutes; needs root, debootstrap and the network'
    tell autograder.sh 'autograder.sh' "Gradescope's zip in a bare Debian 12, with right, wrong and hostile submissions: four minutes; needs root, debootstrap and the network"
    tell imports.py 'imports.py [--tell] CRATE..' 'writes the heads of the proofs, and the module that hands on their words: a second'
    tell html-links.py 'html-links.py FOLDER' 'the links of a release that was untarred'
    tell assumed.py 'assumed.py' "the C functions that programs reach are those that docs/TRUST.md names: some 10 minutes; needs rt, and a gate's libraries"
    tell exercise_8.py 'exercise_8.py' "what the kit says of the mistake in the course's exercise 8 is what the page shows: a minute; needs rt"
    tell cases.py 'cases.py --tell [WORD]' 'what tries a case that a reader would ask for by name'
    tell commands.py 'commands.py --tell' 'which commands of the pages are run by hand alone; the others are run here'
    tell terminal/replayed.py 'terminal/replayed.py --runs 50 [--node]' 'fifty recorded sessions in every tool, at the same event each: a minute, by Node too some minutes'
    tell terminal/by_hand.sh 'terminal/by_hand.sh [FOLDER]' 'sessions at a real terminal, with their screens: a minute; needs tmux'
    tell terminal/measure.py 'terminal/measure.py' 'the terminal'"'"'s speed beside xv_run, its echo, and what it takes while all sleep: a minute'
    tell grading/course.py 'grading/course.py SEED' '200 other damaged submissions, in which --check and the grader agree: half a minute; needs nodejs'
    tell grading/readers.py 'grading/readers.py SEED' 'as many other texts of TOML and CSV, read as Python reads them: some seconds; needs nodejs'
    tell grading/run.sh 'grading/run.sh --all' '210 submissions, twice, in two orders, with a kill and a second start: a minute'
    tell grading/run.sh 'grading/run.sh --many' 'a thousand submissions by GNU parallel (Debian: parallel): two minutes'
    tell c-lines.py 'c-lines.py' 'the lines of the programs in C are those of addr2line: half a minute; needs the C compiler'
    tell dap/run.sh 'dap/run.sh' 'conversations of an editor with the debug adapter: half a minute; needs nodejs'
    tell dap/hostile.mjs 'dap/hostile.mjs [SEED] [COUNT]' 'what no editor should send: a minute; needs nodejs'
    tell dap/stops.mjs 'dap/stops.mjs [COUNT] [SEED]' '2,000 stops of the debug adapter are those of the debugger: a minute; needs nodejs'
    tell dap/forms.sh 'dap/forms.sh' "each message of it has the form that Go's library knows: a minute; needs packages, told by the script"
    tell dap/calls.sh 'dap/calls.sh' "its calls are those of gdb-multiarch's bt: a minute; needs gdb-multiarch and the C compiler"
    tell dap/measure.mjs 'dap/measure.mjs' 'how long it takes to start, and for 1,000 steps, on a host that does nothing else: half a minute'
    tell gdb.sh 'gdb.sh' 'gdb-multiarch finds a planted bug, forth and back: a minute; needs gdb-multiarch and the C compiler'
    tell ../page/check.sh '../page/check.sh' 'the page runs what the program runs, by Node: some minutes; needs nodejs'
    tell ../page/measure.sh '../page/measure.sh' 'how fast the page is, in a browser on a host that does nothing else: two minutes; needs the same'
    tell ../page/look.sh '../page/look.sh FOLDER' 'the page as a student sees it, with pictures: some minutes; needs nodejs, chromium (or firefox-esr, by BROWSER=firefox)'
    echo 'After a failed `rt check`: checks/why.sh CRATE tells what is open, in the order in which to read it.'
}

# Does all checks, each a command, side by side, and tells which of them failed. What each prints is shown in the order given.
do_all() {
    python3 -B checks/side_by_side.py "$@" || exit 1
}

# Node and the modules are to be there. By XV_NODE=yes the scripts in bin/ take them.
begin_node() {
    command -v node >/dev/null || {
        echo 'checks/run.sh --node: there is no node (18.17 or later; Debian: apt-get install nodejs)' >&2
        exit 2
    }
    unset XV_RUN XV_WHY XV_TERMINAL XV_DEBUGGER XV_GRADE
    export XV_NODE=yes PATIENCE="${PATIENCE-120}"
    for name in xv_run xv_why; do
        bin/$name --help >/dev/null || exit 2
    done
}

# What needs a program: the quick ones first.
quick='checks/words/run.sh checks/refusals/run.sh checks/sessions/run.sh checks/rows/wild.sh'
longer='checks/stored-runs/run.sh checks/rows/run.sh checks/why/run.sh checks/c-programs/run.sh checks/gdb/run.sh checks/terminal/run.sh checks/terminal/kept.py checks/terminal/replayed.py checks/debugger/run.sh checks/debugger/typed.py checks/lines.py checks/reasons.py checks/beside-disassemblers/sample.py checks/grading/run.sh checks/grading/course.py checks/grading/readers.py checks/grading/strange.py'

# shellcheck disable=SC2086
case "$*" in
'')
    do_all $quick $longer 'python3 -B checks/commands.py' 'python3 -B checks/links.py' 'python3 -B checks/lemmas.py' \
        'python3 -B checks/closure.py' 'python3 -B checks/once.py' 'python3 -B checks/cases.py' 'python3 -B checks/calls.py' \
        'python3 -B checks/launcher_lines.py' 'python3 -B checks/contracts.py' 'python3 -B checks/edits_apply.py' \
        'python3 -B checks/secrets.py' 'checks/labs.sh --refusals' 'checks/labs.sh --notation' \
        'anywhere/is_current.sh --tell' 'page/is_current.sh --tell' checks/shell.sh
    tell_others
    ;;
--node)
    begin_node
    do_all $quick $longer checks/dap/run.sh 'node checks/dap/hostile.mjs 1 1000' 'node checks/dap/extension.mjs' \
        'node checks/dap/stops.mjs 200' 'node anywhere/try/machine_room.mjs' 'node anywhere/try/break_points.mjs' \
        'node checks/slides.mjs'
    ;;
'--node --quick' | '--quick --node')
    begin_node
    do_all $quick checks/dap/run.sh 'node anywhere/try/machine_room.mjs' 'node anywhere/try/break_points.mjs'
    ;;
--others) tell_others ;;
*)
    echo 'usage: checks/run.sh [--node [--quick] | --others]' >&2
    exit 2
    ;;
esac
