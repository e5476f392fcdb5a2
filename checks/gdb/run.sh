#!/bin/sh
# Plays the stored conversations of GDB's remote protocol, without GDB: checks/gdb/run.sh [PROGRAM]. PROGRAM is xv_gdb,
# under that name, and without a word the one that is proved and built, or by XV_NODE=yes the one by Node. How a conversation is written says the head of
# talk.py. The status is 0 if all are as they should be. checks/gdb.sh does the same with GDB itself.
set -u
here=$(cd "$(dirname "$0")" && pwd) || exit 2
. "$here/../programs.sh"
program=${1-$(program_path "$here/../.." xv_gdb)}
needs_program "$program"
exec python3 -B "$here/talk.py" "$program" "$here"/conversations/*
