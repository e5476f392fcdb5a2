# Sourced by xv and terminal.sh, which have $host and $root: how each kind of the table words.txt is started natively.
#
#   start KIND WORD..   runs the words, which were looked at, by the program of their kind
#
# A kind of HOW `lines` gets the lines of programs in C, from lines.sh. At a terminal those of `keys` get each key
# by itself while the machine runs, and a look at it answers at once; it is as it was after every end that a script can
# see, also one by a signal. Those of `prompt` begin once more there, by pipes, below Node's line editor; without Node
# rlwrap does a part of that, if it is there. XV_WHY, and so on, is another program than bin/xv_why.
# shellcheck shell=sh disable=SC2154
# shellcheck source=programs/host/words.sh
. "$host/words.sh"

# Leaves the program of this name in $program.
find_program() {
    eval "program=\${$(echo "$1" | tr '[:lower:]' '[:upper:]'):-\$root/bin/\$1}"
}

# Starts the kind $1 with its words.
start() {
    row kind "$1"
    shift
    find_program "${row%% *}"
    row=${row#* }
    "start_${row%% *}" "$@"
}

start_plain() {
    exec "$program" "$@"
}

start_lines() {
    lines=$("$host/lines.sh" "$@")
    exec "$program" --lines /dev/fd/3 "$@" 3<<END
$lines
END
}

# Hands on the lines of a trace; all others are for who runs it.
lines_of_trace() {
    row match notes
    NOTES=$row awk '$0 ~ ENVIRON["NOTES"] { print; next } { print | "cat >&5" }'
}

# Draws what is noted. If nothing is, since words, a FILE or the boot were refused, nothing is written.
draw() {
    IFS= read -r first || return 0
    { printf '%s\n' "$first"; cat; } | "$program"
}

# Draws a run. What its programs write to the console goes to standard error, with the reports of --why; the status is
# that of the run, or 5 if the picture can't be written. Without words it draws the trace that standard input has.
start_picture() {
    [ $# -gt 0 ] || exec "$program"
    exec 4>&1 5>&2
    status=$({
        { (start --why --notes "$@") 2>&1 >&5 3>&- 4>&-; echo $? >&3; } |
            lines_of_trace 3>&- 4>&- | { draw >&4 3>&- || echo 5 >&3; }
    } 3>&1 | tail -n 1)
    exit "$status"
}

start_prompt() {
    if [ -t 0 ] && [ -t 1 ] && [ -z "${XV_EDITED-}" ]; then
        if command -v node >/dev/null; then
            XV_AS_BUILT=yes exec node "$root/anywhere/edit.mjs" "$root/xv" --debug --prompt "$@"
        elif command -v rlwrap >/dev/null; then
            XV_EDITED=yes XV_AS_BUILT=yes exec rlwrap "$root/xv" --debug "$@"
        fi
    fi
    [ ! -t 0 ] || set -- --prompt "$@"
    start_lines "$@"
}

# Whether a FILE is a program: a source, or an ELF file by its first bytes.
is_program() {
    case $1 in *.s) return 0 ;; esac
    [ -f "$1" ] && [ "$(head -c 4 -- "$1" 2>/dev/null | tr -d '\0')" = "$(printf '\177ELF')" ]
}

# Notes a part of the words of --gdb: the path of --commands, the program that GDB is to get, and if no option names
# one, the first FILE that is a program and isn't init. All but the path is kept.
note_for_gdb() {
    value_of "$2" ${3+"$3"}
    case $1${2%%=*} in
        option--commands)
            [ -n "$value" ] || refuse needs-path --commands
            commands=$value
            return
            ;;
        option--file) named=$value ;;
        file*)
            files=$((files + 1))
            [ -n "$first" ] || [ "$(name_of "$2")" = init ] || ! is_program "$2" || first=$(name_of "$2")
            ;;
    esac
    keep_part "$@"
}

# Notes the symbols of a FILE. Those of the program that GDB gets stand first, so that its names win.
note_symbols() {
    [ "$1" = file ] && [ -e "$2.debug" ] || return 0
    if [ -z "$symbols" ] && [ "$(name_of "$2")" = "$named" ]; then
        symbols=$2.debug
    else
        others="$others
add-symbol-file '$2.debug' -o 0"
    fi
}

# Writes commands for GDB, by which it knows the symbols of all FILEs, as the C compiler's scripts leave them in
# FILE.debug, and starts the machine; it waits a minute for an answer then. A file that is there is written over only if
# it has such commands: so a forgotten PATH costs no program.
write_commands() {
    begin='# gdb-multiarch -x '
    [ ! -s "$commands" ] || [ ! -f "$commands" ] || [ "$(head -c ${#begin} -- "$commands" | tr -d '\0')" = "$begin" ] ||
        refuse commands-there "$commands"
    symbols='' others='' words=$kept kept=''
    each_part note_symbols "$@"
    keep "$root/xv"
    {
        echo "$begin$commands"
        sed -n 's/^gdb //p' "$table_path"
        [ -z "$symbols" ] || echo "file '$symbols'"
        [ -z "$others" ] || echo "${others#?}"
        echo "target remote |$kept --gdb$words"
    } 2>/dev/null >"$commands" || refuse commands-unwritten "$commands"
    refuse commands-written "$commands"
}

start_gdb() {
    commands='' named='' first='' files=0 kept=''
    each_part note_for_gdb "$@"
    eval "set -- $kept"
    if [ -n "$commands" ]; then
        named=${named:-${first:-init}}
        write_commands "$@"
    elif [ -z "$named" ] && [ "$files" -gt 1 ]; then
        tell gdb-follows "${first:-init}"
        set -- "--file=${first:-init}" "$@"
    fi
    exec "$program" "$@"
}

# Notes the path of --record, and whether it may be written over.
note_record() {
    case $1${2%%=*} in
        option--record) value_of "$2" ${3+"$3"} && record=$value ;;
        option--overwrite) is_given=yes ;;
    esac
}

# A record that is there is written over only if the person at the terminal says so.
ask_for_record() {
    record='' is_given='' answer=
    each_part note_record "$@"
    [ -s "$record" ] && [ -z "$is_given" ] || return 0
    row say record-there
    # shellcheck disable=SC2059
    printf "${row#* } " "$record" >&2
    read -r answer || answer=
    case $answer in y | yes) ;; *) refuse record-kept ;; esac
}

restore() {
    stty "$before" 2>/dev/null
}

# A signal ends the machine first, so that nobody changes the terminal after it.
stop() {
    trap '' HUP INT QUIT TERM
    [ -z "$machine" ] || { kill "$machine" 2>/dev/null; wait "$machine" 2>/dev/null; }
    restore
    exit "$1"
}

# Keys one by one, none of them a signal's; a read answers with what is there, or with nothing.
take_keys() {
    stty -icanon -echo -isig -iexten -ixon min 0 time 0
}

# Who stops the machine from outside gets the terminal as it was; after `fg` it is set anew.
stand_still() {
    restore
    [ -z "$machine" ] || kill -STOP "$machine"
    kill -STOP $$
}

go_on() {
    take_keys
    [ -z "$machine" ] || kill -CONT "$machine"
}

# Notes go to the terminal too, unless standard error leads elsewhere.
start_keys() {
    [ -t 1 ] && [ -t 2 ] || set -- --apart "$@"
    [ -t 0 ] || exec "$program" "$@"
    command -v stty >/dev/null || refuse no-stty
    ask_for_record "$@"
    lines=$("$host/lines.sh" "$@" 2>/dev/null)
    before=$(stty -g) || refuse no-terminal
    machine=
    # shellcheck disable=SC2064
    for it in '129 HUP' '130 INT' '131 QUIT' '143 TERM'; do trap "stop ${it% *}" "${it#* }"; done
    trap stand_still TSTP
    trap go_on CONT
    take_keys || { restore; refuse no-terminal; }
    exec 3<&0
    "$program" --terminal ${answer:+--overwrite} --lines /dev/fd/4 "$@" <&3 3<&- 4<<END &
$lines
END
    machine=$!
    while wait "$machine"; status=$?; [ "$status" -gt 128 ] && kill -0 "$machine" 2>/dev/null; do
        : # It still runs: a signal ended the wait.
    done
    restore
    exit "$status"
}

read_table "$host"
