# shellcheck shell=sh disable=SC2154
# Running and comparing, for ../outside.sh.

now() {
    date +%s%N
}

# Prints the nanoseconds since $1 as seconds.
since() {
    echo "$(($(now) - $1))" | awk '{ printf "%.1f", $1 / 1e9 }'
}

# Runs a command line on the machine, by its shell: what the console shows goes to file $2, the status is answered.
run_here() {
    programs=
    for program in "$top"/programs/bin/* "$GUESTS"/bin/*; do
        case ${program##*/} in call-*) [ "${program##*/}" = "${1%% *}" ] || continue ;; esac
        programs="$programs $program"
    done
    echo "$1" >rc
    # shellcheck disable=SC2086
    "$XV_RUN" --frames 32768 --rounds 1000000 --quantum 100000 $programs $inputs rc </dev/null >"$2" 2>here.errors &&
        return 0
    status=$(sed -n 's/^xv_run: init exited with //p' here.errors)
    [ "$status" != -1 ] || status=255
    return "${status:-99}"
}

# The same under Linux: each program of ours is a script there, which lets QEMU run it.
run_there() {
    PATH=$PWD:$PATH LC_ALL=C timeout 600 sh -c "$1" </dev/null >"$2" 2>&1
}

make_scripts() {
    for program in "$GUESTS"/linux/*; do
        printf '#!/bin/sh\nexec qemu-riscv64 -0 %s %s "$@"\n' "${program##*/}" "$program" >"${program##*/}"
    done
    for program in cat grep head sort; do
        printf '#!/bin/sh\nLC_ALL=C exec /usr/bin/%s "$@"\n' "$program" >"$program"
    done
    chmod +x ./*
}

# Whether the lines that differ are those of the list kernel/NAME.differs, for a program call-NAME: `<` here, `>` there.
is_as_said() {
    said=$checks/outside/kernel/${1#call-}.differs
    diff here.out there.out | grep '^[<>] ' >differs
    grep '^[<>] ' "$said" 2>/dev/null | cmp -s - differs
}

# compare NAME LINE: runs the command line here and there.
compare() {
    begin=$(now)
    run_here "$2" here.out && here=0 || here=$?
    here_seconds=$(since "$begin")
    begin=$(now)
    run_there "$2" there.out && there=0 || there=$?
    verdict=same
    [ "$here" = "$there" ] || verdict="ENDS $here, $there there"
    cmp -s here.out there.out || is_as_said "${2%% *}" || verdict="WRITES OTHERWISE"
    [ "$verdict" = same ] || cp here.out there.out here.errors "$GUESTS/"
    printf '%-10s %-44.44s %6s s %6s s  %s\n' "$1" "$2" "$here_seconds" "$(since "$begin")" "$verdict" |
        tee -a "$GUESTS/results"
}

# The files of the runs: those of cases, those of the examples, and a text.
fetch_inputs() {
    cp "$checks"/outside/cases/* "$top"/programs/examples/lua/*.lua "$top"/programs/examples/sql/*.csv \
        "$top"/programs/examples/sql/*.sql "$top"/programs/examples/awk/*.awk "$1"
    cp "$top"/programs/examples/awk/*.txt "$1"
    cp "$top/docs/manual/processes.md" "$1/text"
    rm "$1/lines"
}

# Compares all command lines of the program's name in cases/lines.
compare_all() {
    room=$GUESTS/room
    rm -rf "$room"
    mkdir -p "$room"
    cd "$room"
    fetch_inputs .
    inputs=$(echo ./*)
    make_scripts
    grep "^$1: " "$checks/outside/cases/lines" | while read -r _ line; do
        compare "$1" "$line"
    done
}

tell_sum() {
    runs=$(wc -l <"$GUESTS/results")
    same=$(grep -c ' same$' "$GUESTS/results" || true)
    echo "$runs runs, of which $same gave the same here and by qemu-riscv64"
    [ "$runs" = "$same" ]
}
