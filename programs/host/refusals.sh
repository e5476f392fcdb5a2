# Sourced by xv, after words.sh: what speaks against words before a program gets them, said with what to do. The texts
# are those of words.txt. (anywhere/src/refusals.mjs says them by Node, and checks/refusals compares both with one
# text.)
#
#   look_at KIND RUN WORD..   looks at the words for KIND: run, terminal, or a mode. RUN is the program xv_run, which
#                             assembles. It ends with 1 if an option is refused, and with 2 if a FILE is. Else $alone
#                             is the single FILE that is to be taken as init, or nothing
#
# What it knows nothing of, as the numbers of options, it leaves to the programs.
# shellcheck shell=sh disable=SC2034,SC2046,SC2154

# Kinds in words: `a run in rounds, --why and --gdb`.
in_words() {
    said=
    for it; do
        shift
        row kind "$it"
        row=${row#* * }
        case $said$# in
            ?*0) said="$said and $row" ;;
            ?*) said="$said${said:+, }$row" ;;
        esac
    done
    echo "$said"
}

# Looks at the option $1, which may have the value $2.
look_at_option() {
    option=${1%%=*}
    if [ "$option" != "$1" ] && { row kind "$option" || { row option "$option" && ! has_value "$option"; }; }; then
        refuse no-value "$option"
    fi
    row option "$option" || refuse no-option "$option"
    takers=${row#* }
    [ "$takers" != "$row" ] || refuse no-option "$option"
    case " $takers " in *" $for_kind "*) return ;; esac
    # shellcheck disable=SC2086
    takers=$(in_words $takers)
    [ "$for_kind" != run ] || refuse not-in-rounds "$option" "$takers"
    refuse other-kind "$option" "$(in_words "$for_kind")" "$takers"
}

# The first FILE that gives a program of the name $1.
first_of_name() {
    given=${given#*"
$1/"}
    echo "${given%%"
"*}"
}

# Looks at the FILE $1.
look_at_file() {
    file=$1
    [ -n "$file" ] || refuse empty
    [ ! -d "$file" ] || refuse folder "$file" "${file%/}"
    [ -e "$file" ] || refuse missing "$file"
    name=$(name_of "$file")
    bytes=$(LC_ALL=C; echo "${#name}")
    [ "$bytes" != 0 ] || refuse nameless "$file"
    [ "$bytes" -le "$most_name_bytes" ] || refuse long-name "$name" "$bytes" "$most_name_bytes"
    [ "$name" != console ] || refuse console "$file"
    case $names in */"$name"/*) refuse same-name "$name" "$(first_of_name "$name")" "$file" ;; esac
    names=$names$name/ given="$given
$name/$file" files=$((files + 1))
    [ "$files" -le "$most_files" ] || refuse many-files "$most_files"
    case $file in
        *.s) [ ! -f "$file" ] || look_at_source "$file" ;;
    esac
}

# Ends with the assembler's mistakes in the source $1, if there are any: the assembler tells the first, so a line that
# it has told is left out, but for its label (or for all but its label, if the label is the mistake), and it is asked
# again.
look_at_source() {
    # A source that is right costs no file.
    first_mistake "$1" || return 0
    case $mistake in [!0-9]*) refuse unread "$1" "$mistake" ;; esac
    copies=$(mktemp -d) || return 0
    cp -- "$1" "$copies/it.s" || return 0
    count=0
    while first_mistake "$copies/it.s"; do
        count=$((count + 1))
        [ "$count" -le "$most_mistakes" ] || { tell more-mistakes; break; }
        line=${mistake%% *}
        text=$(sed -n "$line"'{s/^[ 	]*//; s/[ 	]*#.*$//; s/[ 	]*$//; p; q;}' "$copies/it.s")
        row mistake "${mistake#* }"
        tell mistake "$1" "$line" "$text" "$row" "${mistake#* }"
        label='[ 	]*[A-Za-z_][A-Za-z0-9_]*:'
        case $mistake in
            *DuplicateLabel) sed "${line}s/^$label//" "$copies/it.s" ;;
            *) sed "$line{/^$label/!s/.*//; s/^\\($label\\).*/\\1/;}" "$copies/it.s" ;;
        esac >"$copies/next"
        mv "$copies/next" "$copies/it.s"
    done
    rm -rf "$copies"
    exit "$told"
}

# What the assembler says of the source $1 first: `LINE KIND`, or why it can't be read, in $mistake. Fails if it says
# nothing.
first_mistake() {
    mistake=$("$run" --rounds 0 -- "$1" 2>&1 >/dev/null </dev/null |
        sed -nE 's/^xv_run: .*: line ([0-9]*): ([A-Za-z]*)$/\1 \2/p
            s/^xv_run: .*: (too long|not text|cannot be read)$/\1/p')
    [ -n "$mistake" ]
}

# Whether a plain FILE has no more bytes than one may have, which are in $row.
is_short() {
    row most file-bytes
    [ "$(wc -c <"$1")" -le "$row" ]
}

# Tells for which other processor the ELF file $1 is, if it is for one (ELF-64 Object File Format, "File header";
# RISC-V ELF psABI, "File Header": flag 1 stands for compressed instructions).
look_at_processor() {
    [ -f "$1" ] && [ -r "$1" ] || return 0
    set -- "$1" $(od -An -v -tu1 -N 64 <"$1")
    [ "${2-} ${3-} ${4-} ${5-} $#" = '127 69 76 70 65' ] || return 0
    processor=$((${20} + 256 * ${21}))
    case $processor/$6/$((${50} % 2)) in 243/1/*) processor=243/32 ;; 243/2/1) processor=243/c ;; 243/*) return ;; esac
    row processor "$processor" || row="the processor of e_machine $processor"
    tell other-processor "$1" "$row"
}

# Looks whether there is an init among the FILES, of which $file is the last.
look_for_init() {
    alone=
    case $names in
        /) return ;;
        */init/*) look_at_processor "$(first_of_name init)"; return ;;
    esac
    [ "$files" = 1 ] || refuse no-init
    [ -f "$file" ] || [ -p "$file" ] || refuse not-plain "$file"
    [ -r "$file" ] || refuse unread "$file" 'cannot be read'
    [ ! -f "$file" ] || is_short "$file" || refuse too-long "$file" "$row"
    case $file in *.c) refuse in-c "$file" ;; esac
    alone=$file
    case $names in
        /sh/) tell shell-as-init "$file" ;;
        *) tell as-init "$file" "$file" ;;
    esac
    look_at_processor "$file"
}

find_help() {
    case $1$2 in option-h | option--help) helps=yes ;; esac
}

look_at_part() {
    case $1 in
        option) look_at_option "$2" ;;
        file) look_at_file "$2" ;;
    esac
}

look_at() {
    for_kind=$1 run=$2 names=/ given='' files=0 file='' helps='' alone=''
    row most files && most_files=$row
    row most name-bytes && most_name_bytes=$row
    row most mistakes && most_mistakes=$row
    shift 2
    each_part find_help "$@"
    [ -z "$helps" ] || return 0
    each_part look_at_part "$@"
    look_for_init
}
