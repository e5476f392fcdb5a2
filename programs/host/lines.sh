#!/bin/sh
# The lines of programs in C, for the programs that take --lines: a table with a row PLACE ADDRESS LINE for each
# address from which on the instructions are of a line, where PLACE is the FILE's, from 0 on, and both numbers are
# decimal. A row without a LINE ends what is known.
#
#   programs/host/lines.sh [OPTION..] FILE..
#
# The options are those of the programs that run FILEs: they are passed over. The lines come from FILE.debug, from
# FILE.lines, which xv --cc leaves, or from FILE, by xv_lines. A FILE that has none gets no row,
# and so does assembler source: the programs themselves know its lines.
set -u
here=$(dirname "$(readlink -f -- "$0")")
. "$here/words.sh"

# What is known of a program.
table_of() {
    if [ -e "$1.debug" ]; then "$here/../../bin/xv_lines" <"$1.debug"
    elif [ -e "$1.lines" ]; then cat "$1.lines"
    else "$here/../../bin/xv_lines" <"$1"; fi 2>/dev/null
}

# Tells the rows of a table that are of lines.
tell_rows() {
    while read -r first rest; do
        case $first,$rest in
            file,*) file=$rest ;;
            [0-9]*,0) printf '%s %s \n' "$place" "$first" ;;
            [0-9]*) printf '%s %s %s:%s\n' "$place" "$first" "$file" "$rest" ;;
        esac
    done
}

# Tells the lines of a FILE among the words.
of_part() {
    [ "$1" = file ] || return 0
    case $2 in
        *.s) ;;
        *) table_of "$2" | tell_rows ;;
    esac
    place=$((place + 1))
}

place=0
read_table "$here"
each_part of_part "$@"
