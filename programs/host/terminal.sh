#!/bin/sh
# The machine at a terminal: programs/host/terminal.sh [OPTION..] FILE.., with the options of xv_terminal (--help
# tells them). Without words it runs the shell with all programs that stand in programs/bin.
host=$(dirname "$(readlink -f -- "$0")") root=${host%/programs/host}
. "$host/modes.sh"
[ $# -gt 0 ] || set -- "$root"/programs/bin/*
start terminal "$@"
