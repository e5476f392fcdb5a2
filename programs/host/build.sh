#!/bin/sh
# Builds the native programs of a clone, and tells what is built. ./xv calls it:
#
#   build.sh --build             proves all crates and builds the programs, as far as sources have changed
#   build.sh --unproved WORD..   runs xv_run as it is without proofs, which is built first if sources have changed
#   build.sh --is-current        its status is 0 if the programs are proved and built of these sources
#   build.sh --status            tells what is built
#   build.sh --proved            notes that what stands built is proved of these sources: for the gate, which has just proved it
#
# It needs python3, and `rt`, of the Rattle kit, on the PATH. What is done stays done: --build can be stopped by Ctrl-C, and
# goes on the next time. The status is 125 if something couldn't be built.
set -u

root=$(cd "$(dirname "$(readlink -f -- "$0")")/../.." && pwd) || exit 125
out=$root/crates/xv_run/out
log=$out/xv.log
stamp=$out/xv.stamp
unproved=$out/unproved
. "$root/programs/host/kit.sh"

# The crates that are programs.
programs() {
    for main in "$root"/crates/*/src/main.rt; do
        name=${main%/src/main.rt}
        echo "${name##*/}"
    done
}

# Where the program of a crate is built.
built_at() {
    echo "$root/crates/$1/out/$1"
}

say() {
    printf 'xv: %s\n' "$*" >&2
}

give_up() {
    say "$*"
    exit 125
}

find_rt() {
    command -v rt >/dev/null || give_up "there is no rt on the PATH: it is the command of the Rattle kit"
    rt version >/dev/null 2>&1 || give_up "rt doesn't start: rt version says why (it needs python3)"
}

# Makes the folder of what is built, and takes the lock $1 in it, until this shell ends. While another call has it, this
# one waits. What this shell starts is not to keep the lock, so 9>&- stands there.
take_turn() {
    { mkdir -p "$out" && touch "$1"; } || give_up "nothing can be written to $out"
    command -v flock >/dev/null || return 0
    exec 9>>"$1"
    flock -n 9 && return
    say "another ./xv builds here: waiting for its end"
    flock 9
}

# All that a proof reads: the list of crates, and each crate's code, definitions and proofs. Words behind are for find.
sources() {
    (cd "$root" && find crates.txt crates \( -name out -o -name must-fail \) -prune \
        -o -type f \( -name crates.txt -o -name '*.rt' -o -name '*.antt' \) "$@")
}

# What a command prints, $3 and what follows; or what it printed the last time, if $2 is as it was then. The file $1 has both.
remembered() {
    file=$1 now=$2
    shift 2
    if [ -e "$file" ] && { IFS= read -r before && IFS= read -r said; } <"$file" && [ "$before" = "$now" ]; then
        echo "$said"
        return
    fi
    said=$("$@")
    [ ! -d "$out" ] || { printf '%s\n' "$now" "$said" >"$file.$$" && mv "$file.$$" "$file"; }
    echo "$said"
}

sum_sources() {
    sources -print0 | (cd "$root" && LC_ALL=C sort -z | xargs -0 sha256sum) | sha256sum
}

# A checksum of the sources, by their names and contents. It isn't computed anew while the size and times of each are as
# they were.
sources_sum() {
    remembered "$out/xv.sources" "$(sources -printf '%p %s %T@ %C@\n' | LC_ALL=C sort | sha256sum)" sum_sources
}

sum_programs() {
    for name in $(programs); do
        sha256sum <"$(built_at "$name")"
    done | sha256sum
}

# The same of what is built.
programs_sum() {
    remembered "$out/xv.programs" "$(for name in $(programs); do stat -c '%s %y %z' "$(built_at "$name")"; done | sha256sum)" sum_programs
}

# The sources' checksum, and that of what was built of them.
built_sum() {
    sources_sum && programs_sum
}

are_built() {
    for name in $(programs); do
        [ -x "$(built_at "$name")" ] || return 1
    done
}

# Whether what stands built was built of just these sources.
is_current() {
    [ -e "$stamp" ] && are_built && [ "$(built_sum)" = "$(cat "$stamp")" ]
}

# Says which crates are proved, as they come, of all those in its arguments, and how many of how many. Its status is
# that of the command whose output it reads, which stands in the last line.
tell_progress() {
    left=" $* "
    all=$#
    count=0
    while IFS= read -r line; do
        case $line in
            '== status '*) return "${line#== status }" ;;
            '== summary') ;;
            'rt: waiting for'*) say "${line#rt: }" ;;
            '== '*)
                name=${line#== }
                case $left in *" $name "*) ;; *) continue ;; esac
                left="${left%% "$name" *} ${left#* "$name" }"
                count=$((count + 1))
                say "$(bar "$count" "$all") $count of $all: $name is done; to do:${left}"
                ;;
        esac
    done
    return 1
}

# A bar of 20 places, so many of all of them filled.
bar() {
    filled=$((20 * $1 / $2))
    printf '[%.*s%.*s]' "$filled" '####################' "$((20 - filled))" '....................'
}

# The names of all crates.
crates() {
    sed -n 's/^\([a-z0-9_][a-z0-9_]*\).*:.*/\1/p' "$root/crates.txt"
}

# How many crates were done when the last build ended.
count_done() {
    sed -n 's/^== \([a-z0-9_]*\)$/\1/p' "$log" 2>/dev/null | grep -vx summary | sort -u | wc -l
}

prove_crates() {
    names=$(crates)
    # shellcheck disable=SC2086
    { rt all check --jobs "$("$root/programs/host/jobs.sh")"; echo "== status $?"; } </dev/null 2>&1 9>&- | tee "$log" | tell_progress $names
}

build_programs() {
    for name in $(programs); do
        say "building $name"
        (cd "$root/crates/$name" && rt run -- --help </dev/null) >>"$log" 2>&1 9>&- || return 1
    done
}

build() {
    find_rt
    take_turn "$stamp.lock"
    if is_current; then
        say "proved and built of these sources"
        return
    fi
    cd "$root" || give_up "there is no way to $root"
    if [ -e "$stamp" ]; then
        say "the sources have changed: proving and building what that concerns"
    else
        say "proving and building all crates, which takes up to an hour on 4 processors"
    fi
    [ -e "$stamp.seconds" ] && say "the last time it took $(cat "$stamp.seconds") seconds"
    start=$(date +%s)
    say "Ctrl-C stops it, and the next ./xv --build goes on from there; ./xv --unproved needs no proofs"
    begun=$(sources_sum)
    (prove_crates) || give_up "a crate isn't proved: checks/why.sh NAME says why; see also $log"
    (build_programs) || give_up "a program isn't built; see $log"
    if [ "$(sources_sum)" = "$begun" ]; then
        built_sum >"$stamp"
        echo "$(($(date +%s) - start))" >"$stamp.seconds"
    else
        say "a source was changed meanwhile: the next ./xv --build proves that"
    fi
}

# Builds without proofs into the folder $1. `rt try` makes such a build, runs it and removes it: so it is given a program
# without an end, and what runs is copied (kit.sh).
try_build() {
    printf 'again: j again\n' >"$1/init.s"
    (cd "$root/crates/xv_run" && exec rt try -- --rounds 1000000000 --quantum 1000000 "$1/init.s") >"$unproved.log" 2>&1 9>&- &
    trial=$!
    while kill -0 "$trial" 2>/dev/null; do
        if process=$(trial_process "$1/init.s"); then
            copy_trial "$process" "$1"
            kill "$process"
            break
        fi
        sleep 0.2
    done
    wait "$trial"
    [ -e "$1/program" ]
}

# Whether the build without proofs stands, was built of just these sources, and its loader is there.
is_current_unproved() {
    [ -e "$unproved" ] && [ -x "$(head -n 1 "$unproved.loader" 2>/dev/null)" ] &&
        [ "$(sources_sum)" = "$(cat "$unproved.stamp" 2>/dev/null)" ]
}

# Keeps a build without proofs. It is put in its place whole, and nothing is left behind by who stops it on its way.
keep_unproved() {
    find_rt
    take_turn "$unproved.lock"
    ! is_current_unproved || return 0
    say "building without proofs, within two minutes"
    trial=
    room=$(mktemp -d) || give_up "there is no room for a build"
    trap '[ -z "$trial" ] || kill "$trial" 2>/dev/null; rm -rf "$room"' EXIT
    trap 'exit 130' INT
    trap 'exit 143' TERM HUP
    begun=$(sources_sum)
    try_build "$room" || give_up "it isn't built; see $unproved.log"
    trial=
    rm -f "$unproved.stamp"
    { cp "$room/loader" "$unproved.loader" && cp "$room/program" "$unproved.new" && mv "$unproved.new" "$unproved"; } ||
        give_up "there is no room for $unproved"
    if [ "$(sources_sum)" = "$begun" ]; then
        echo "$begun" >"$unproved.stamp"
    else
        say "a source was changed meanwhile: the next call builds anew"
    fi
}

# Runs the build without proofs, which is made first if a source has changed.
run_unproved() {
    is_current_unproved || (keep_unproved) || exit
    say "this build isn't proved, and it is slow"
    { IFS= read -r loader && IFS= read -r first && IFS= read -r second && IFS= read -r third; } <"$unproved.loader" ||
        give_up "$unproved.loader isn't whole: remove it"
    exec "$loader" "$first" "$second" "$third" "$unproved" "$@"
}

# What is built, and whether it is proved of these sources.
show_status() {
    if is_current; then
        say "the native programs run: they are proved and built of these sources"
    elif are_built && [ -e "$stamp" ]; then
        say "there are native programs, and sources have changed since: ./xv --build proves and builds what that concerns"
    elif are_built; then
        say "there are native programs, and nobody has noted of which sources they are: ./xv --build proves and builds what is left"
    else
        say "the native programs aren't built: ./xv --build proves and builds them"
        count=$(count_done)
        [ "$count" = 0 ] || say "$count of $(crates | wc -l) crates were done when the last build ended; the next goes on from there"
    fi
    [ ! -e "$unproved" ] || if is_current_unproved; then
        say "there is a build without proofs too, for ./xv --unproved"
    else
        say "there is a build without proofs too, of other sources: ./xv --unproved builds anew"
    fi
}

case ${1-} in
    --build)
        [ $# = 1 ] || give_up "--build takes no other words"
        build
        ;;
    --unproved)
        shift
        run_unproved "$@"
        ;;
    --is-current) is_current ;;
    --status) show_status ;;
    --proved) are_built && built_sum >"$stamp" ;;
    *) give_up "build.sh takes --build, --unproved WORD.., --is-current, --status or --proved" ;;
esac
