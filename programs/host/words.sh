# Sourced: the words of a command line, as the table words.txt tells them. (anywhere/src/words.mjs reads the same
# table.)
#
#   read_table FOLDER         reads FOLDER/words.txt
#   row TYPE NAME             leaves in $row what stands after the name in that row; fails if there is none
#   takes KIND OPTION         whether a kind takes an option
#   tell NAME WORD..          says the text of this name, with these words in it, and leaves its status in $told
#   refuse NAME WORD..        does so, and ends with that status
#   each_part CALL WORD..     does `CALL option WORD [VALUE]`, `CALL end --` or `CALL file WORD` for each part of the
#                             words
#   keep WORD                 adds a word to $kept, as a shell reads it back: eval "set -- $kept"
#   keep_part KIND WORD ..    adds the words of a part. A value with a dash, as a negative number, stands in one word
#                             with its option then: so it is no option itself
#   value_of WORD [VALUE]     leaves in $value the value of an option, whichever way it stands
#   name_of FILE              tells the name of the program that a FILE gives
#   show_help                 tells the help
# shellcheck shell=sh disable=SC2034,SC2154

read_table() {
    command -v cat >/dev/null || {
        printf 'xv: there is no cat on the PATH: it leads to none of the commands of the host\n' >&2
        exit 125
    }
    table_path=$1/words.txt
    table="
$(cat "$table_path")
"
}

row() {
    row=${table#*"
$1 $2 "}
    [ "$row" != "$table" ] || return 1
    row=${row%%"
"*}
}

takes() {
    row option "$2" || return 1
    case " ${row#* } " in *" $1 "*) ;; *) return 1 ;; esac
}

has_value() {
    row option "$1" && [ "${row%% *}" != - ]
}

tell() {
    row say "$1" || return 1
    shift
    told=${row%% *}
    # shellcheck disable=SC2059
    printf "xv: ${row#* }\\n" "$@" >&2
}

refuse() {
    tell "$@"
    exit "$told"
}

each_part() {
    call=$1 before='' ended=''
    shift
    for word; do
        if [ -n "$before" ]; then
            "$call" option "$before" "$word"
            before=
            continue
        fi
        case $ended$word in
            --)
                ended=/
                "$call" end --
                ;;
            -?*) ! row short "$word" || word=$row; if has_value "$word"; then before=$word; else "$call" option "$word"; fi ;;
            *) "$call" file "$word" ;;
        esac
    done
    [ -z "$before" ] || "$call" option "$before"
}

keep() {
    left=$1 quoted=
    while :; do
        case $left in
            *\'*) quoted=$quoted${left%%\'*}"'\\''" left=${left#*\'} ;;
            *) break ;;
        esac
    done
    kept="$kept '$quoted$left'"
}

keep_part() {
    case $1$#${3-} in
        option3-[!-]*) keep "$2=$3" ;;
        option3*)
            keep "$2"
            keep "$3"
            ;;
        *) keep "$2" ;;
    esac
}

value_of() {
    case $1 in
        *=*) value=${1#*=} ;;
        *) value=${2-} ;;
    esac
}

name_of() {
    name=${1##*/}
    echo "${name%.s}"
}

# Options stand before the help in the table.
show_help() {
    awk '
$1 == "option" {
    shown = $2 ($3 == "-" ? "" : " " $3)
    for (k = 4; k <= NF; k++) all[$k] = all[$k] (all[$k] ? " " : "") "[" shown "]"
    if (NF == 4) only[$4] = only[$4] (only[$4] ? ", " : "") shown
}
/^help/ {
    line = substr($0, 6)
    if (match(line, /[{][^}]*[}]/)) {
        count = split(substr(line, RSTART + 1, RLENGTH - 2), names, " ")
        line = substr(line, 1, RSTART - 1) (count == 2 ? only[names[2]] : all[names[1]]) substr(line, RSTART + RLENGTH)
    }
    print line
}' "$table_path"
}
