#!/bin/sh
# Sessions at a real terminal, driven by tmux: checks/terminal/by_hand.sh [FOLDER]. It types what a student would type,
# waits for what must come, and leaves the screens as texts in the folder (without one, in a new one). It needs tmux
# (Debian: apt-get install tmux) and the built program (XV_TERMINAL, as in programs/host/terminal.sh). PATIENCE=3 waits three
# times as long, for a slow build. START='node xv.mjs' starts the machine by that in place of programs/host/terminal.sh.
# SCREEN='-x 132 -y 43' takes a window of another size than 80 by 24. The status is 0 if all came, and the terminal was
# restored, and no process and no file was left behind, after each of the ends.
set -u
here=$(cd "$(dirname "$0")" && pwd) || exit 2
top=$(cd "$here/../.." && pwd) || exit 2
command -v tmux >/dev/null || { echo "by_hand.sh: there is no tmux: apt-get install tmux" >&2; exit 2; }
screens=${1-$(mktemp -d)} || exit 2
mkdir -p "$screens/unread" && screens=$(cd "$screens" && pwd) || exit 2
begin=${START-programs/host/terminal.sh}
socket=xv_by_hand_$$
bad=0
shots=0

mux() {
    tmux -L "$socket" "$@"
}

# A window of its own, with the prompt `host> `, in the top folder. Files that are made for a while go to a folder of
# their own.
room=$(mktemp -d) || exit 2
open_window() {
    # shellcheck disable=SC2086
    mux -f /dev/null new-session -d -s window ${SCREEN--x 80 -y 24} "cd '$top' && exec env TMPDIR='$room' PS1='host> ' PS2= ENV= sh" || exit 2
    wait_for 50 '^host> *$'
}

trap 'mux kill-server 2>/dev/null; rm -rf "$room"' EXIT

# The screen, without empty lines at its end.
screen() {
    mux capture-pane -p -t window | sed -e :a -e '/^\n*$/{$d;N;ba' -e '}'
}

# Keeps the screen as a text, in which the path of the repository isn't told.
shoot() {
    shots=$((shots + 1))
    screen | sed "s|$top/||g" >"$screens/$(printf %02d "$shots")-$1.txt"
}

complain() {
    echo "$1"
    screen | tail -12
    bad=$((bad + 1))
}

# Waits up to $1 tenths of a second for a line that fits the pattern $2 among the last $3 of the screen, without $3 the
# last.
wait_for() {
    left=$(($1 * ${PATIENCE-1}))
    while [ "$left" -gt 0 ]; do
        screen | tail "-${3-1}" | grep -q -- "$2" && return 0
        sleep 0.1
        left=$((left - 1))
    done
    complain "this did not come: $2"
    return 1
}

keys() {
    mux send-keys -t window "$@"
}

text() {
    mux send-keys -t window -l "$1"
}

# Types a line, and waits for the prompt of the shell behind it; or for another pattern, $3, among the last $4 lines.
line() {
    text "$1"
    keys Enter
    sleep 0.3
    wait_for "${2-50}" "${3-^\\$ *\$}" "${4-1}"
}

# The script and the machine that run in the window: they are the shell's child, and its child; of another START they may be
# one process.
find_machine() {
    for _ in 1 2 3 4 5 6 7 8 9 10; do
        script=$(pgrep -P "$(mux display-message -p -t window '#{pane_pid}')" | head -1)
        machine=$(pgrep -P "${script:-0}" | head -1)
        [ -z "${START-}" ] || machine=${machine:-$script}
        [ -z "$script" ] || [ -z "$machine" ] || return 0
        sleep 0.2
    done
    complain "the machine isn't found"
    exit 1
}

# Whether a process runs: one that has ended may still be listed, until its parent looks.
lives() {
    case $(ps -o stat= -p "$1") in '' | Z*) return 1 ;; esac
}

# Clears the screen, and waits until the host's prompt stands there alone.
clear_screen() {
    text 'clear'
    keys Enter
    left=$((50 * ${PATIENCE-1}))
    while [ "$left" -gt 0 ]; do
        [ "$(screen | sed 's/ *$//')" != 'host>' ] || return 0
        sleep 0.1
        left=$((left - 1))
    done
    complain "the screen isn't cleared"
}

# Starts the machine with these words, and waits for the prompt of its shell, unless $2 is none.
start() {
    clear_screen
    text "$begin ${1:-programs/bin/*}; echo status \$?"
    keys Enter
    [ "${2-}" = none ] || wait_for 100 '^\$ *$'
    find_machine
}

# The end with the status $1: the terminal is as it was, and the machine is gone.
ended() {
    wait_for 50 "status $1\$" 3
    line 'stty -a | tr " " "\n" | grep -E "^-?(icanon|echo|isig|ixon|iexten)$" | tr "\n" " "; echo' 30 '^host> *$'
    screen | tail -3 | grep -q '^isig icanon iexten echo ixon\|^ixon isig icanon iexten echo' || complain "the terminal isn't restored"
    [ ! -d "/proc/$machine" ] || complain "the machine is still there"
    [ ! -d "/proc/$script" ] || complain "the script is still there"
}

open_window

# Without stty the script tells what is missing.
if [ -z "${START-}" ]; then
    mkdir "$room/tools"
    for tool in dirname readlink; do
        ln -s "$(command -v "$tool")" "$room/tools/"
    done
    line "PATH=$room/tools /bin/sh programs/host/terminal.sh; echo status \$?" 30 '^status 125$' 3
    rm -r "$room/tools"
fi

# Twenty commands, with editing.
start ''
shoot prompt
line 'echo hello world'
text 'echo helo wrld'
keys BSpace BSpace BSpace BSpace BSpace BSpace BSpace
line 'lo world'
text 'this is never run'
keys C-u
line 'echo a b c | wc'
line 'echo one; echo two; echo three'
line '(echo deep; (echo deeper))'
line 'primes 30' 100
line 'pingpong 2'
line 'cat nothing'
line 'nothing'
line 'echo b a | sort'
line ''
line 'lazy'
shoot commands
line 'cat' 50 '^\$ cat$'
line 'a line for cat' 50 '^a line for cat$'
keys C-p
wait_for 50 'cat .*the console'
shoot processes
keys C-d
wait_for 50 '^\$ *$'
line 'crash 15' 100
line 'crash 2; echo behind' 100
shoot faults
line 'forks' 300
line 'sleep 5 & echo at once'
line 'wait'

# A sleep of five ticks takes half a second.
begun=$(date +%s%N)
line 'sleep 5'
took=$((($(date +%s%N) - begun) / 1000000))
echo "sleep 5: $took ms"
[ "$took" -ge 400 ] && [ "$took" -le 1500 ] || complain "sleep 5 took $took ms"
shoot sleeps

# While all sleep no processor time is taken: in ten seconds a tenth of a second at most.
spent() { awk '{ print $14 + $15 }' "/proc/$machine/stat"; }
was=$(spent)
sleep 10
idle=$(($(spent) - was))
echo "idle: $idle hundredths of a second of processor time in 10 seconds"
[ "$idle" -le 10 ] || bad=$((bad + 1))

# Ctrl-C and Ctrl-\.
line 'cat | wc' 50 'wc$'
keys C-c
wait_for 50 '^(xv) *$'
line 'ps' 50 '^(xv) *$'
line 'fds' 50 '^(xv) *$'
line 'c' 50 'c$'
line 'now it is typed' 50 'typed$'
keys C-d
wait_for 50 '^\$ *$'
shoot stopped
keys 'C-\'
ended 4
shoot ended

# A program that hangs, looked into by Ctrl-C.
cp "$here/../why/unread.s" "$screens/unread/init.s"
start "$screens/unread/init.s" none
for _ in 1 2 3 4 5 6 7 8 9 10; do
    keys C-p
    sleep "${PATIENCE-1}"
    screen | grep -q 'sleeps in read' && break
done
keys C-c
wait_for 50 '^(xv) *$'
line 'where' 50 '^(xv) *$'
line 'fds of 2' 50 '^(xv) *$'
shoot hang

# Back to the boot, forth to the read, an instruction back, and on: it hangs again.
line 'back 1000000' 50 '^(xv) *$'
screen | tail -4 | grep -q '^at 0, 0 ticks: nobody runs' || complain "back doesn't lead to the boot"
line 'until call read' 50 '^(xv) *$'
line 'back' 50 '^(xv) *$'
line 'step' 50 '^(xv) *$'
shoot back
line 'c' 50 'c$'
sleep 1
keys C-c
wait_for 50 '^(xv) *$'
screen | tail -4 | grep -q 'the reader itself' || complain "the machine doesn't go on"
line 'quit' 50 '^status' 3
ended 4

# A program without end: Ctrl-C breaks off the word that runs, at once, and what was typed before is the next line's. To go
# back takes about as long as the machine has run.
mkdir -p "$screens/endless"
printf '_start:\n  addi t0, t0, 1\n  j _start\n' >"$screens/endless/init.s"
start "$screens/endless/init.s" none
wait_for 100 '^Ctrl-C stops the machine'
sleep 3
keys C-c
wait_for 50 '^(xv) *$'
for word in 'until call exit' 'run 90000' 'back until call exit' 'back 5'; do
    text "$word"
    keys Enter
    sleep 0.2
    text 'at'
    keys C-c
    wait_for 20 '^(xv) at$'
    screen | tail -6 | grep -q '^it was broken off' || complain "$word isn't broken off"
    line '' 5 '^(xv) *$'
done
shoot broken_off
text 'until call exit'
keys Enter
sleep 0.2
keys 'C-\'
ended 4

# A fork bomb. The machine goes on, keys are echoed, and Ctrl-\ ends it.
start 'programs/bin/init programs/bin/sh checks/terminal/bomb.s'
line 'bomb' 20 '^\$ bomb$'
sleep 2
line 'is this echoed' 20 '^is this echoed$'
keys C-p
wait_for 50 '^[0-9]* bomb ' 2
shoot bomb
keys 'C-\'
ended 4

# The shell ends by exit, and by Ctrl-D.
start ''
line 'exit 7' 50 '^status' 3
ended 3
shoot exited
start ''
keys C-d
ended 0

# A session that is recorded, and played again.
start "--record $screens/record.txt programs/bin/*"
line 'sleep 3; echo awake' 50
line 'exit' 50 '^status' 3
ended 0
(cd "$top" && $begin --replay "$screens/record.txt" programs/bin/* </dev/null) >"$screens/played.txt" 2>&1 ||
    complain "the record isn't played"
grep -q awake "$screens/played.txt" || complain "played again it shows other bytes"
cp "$screens/record.txt" "$screens/kept.txt"

# A record that is there isn't written over, unless the person says so.
clear_screen
text "$begin --record $screens/record.txt programs/bin/*; echo status \$?"
keys Enter
wait_for 50 'Write over it? (y or n) *$'
text 'n'
keys Enter
wait_for 50 '^status 125$' 3
cmp -s "$screens/record.txt" "$screens/kept.txt" || complain "the record was written over"

# Who stops it from outside gets the terminal as it was, and after fg the keys go to the machine again.
start ''
kill -TSTP "$script"
wait_for 50 '^host> *$'
line 'stty -a | tr " " "\n" | grep -E "^-?(icanon|echo)$" | tr "\n" " "; echo' 30 '^host> *$'
screen | tail -3 | grep -q '^icanon echo' || complain "a terminal that is stopped isn't as it was"
text 'fg'
keys Enter
sleep 0.5
line 'echo again' 50 '^again$' 2
keys 'C-\'
wait_for 50 '^host> *$'
[ ! -d "/proc/$machine" ] || complain "the machine is still there"

# A signal to the script ends it too; and so does the end of the window.
for signal in TERM HUP INT QUIT; do
    start ''
    kill "-$signal" "$script"
    case $signal in TERM) wanted=143 ;; HUP) wanted=129 ;; INT) wanted=130 ;; QUIT) wanted=131 ;; esac
    ended "$wanted"
done
shoot signal
start ''
mux kill-server
for _ in 1 2 3 4 5 6 7 8 9 10; do
    lives "$machine" || lives "$script" || break
    sleep "0.${PATIENCE-1}"
done
! lives "$machine" && ! lives "$script" || {
    echo "a process is there behind the end of the window"
    bad=$((bad + 1))
}
[ -z "$(ls -A "$room")" ] || {
    echo "a file is left in $room"
    bad=$((bad + 1))
}
echo "screens: $screens; $shots of them; $bad things were not as they should be"
[ "$bad" = 0 ]
