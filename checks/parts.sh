# Sourced by the checks that play sessions: how the text of a session is read. Its parts come into the folder $room; the
# folder $programs has the programs, as programs/ of the repository does.
#
#   take_apart TEXT   makes a file =NAME of each part `== NAME`, and of each file of the session one of its own name; of a
#                     part `== trace PATTERN` the pattern is the file =pattern
#   lines FILE        tells the lines of a part, the last one without its end if it ends in \c
#   keys              tells the bytes that are typed: ^D is the byte 4 and so on, ^? is 127, and <30> are 30 bytes of 0, which
#                     no key gives
#   words             tells the words of the command line, with the path of each FILE: one of the session's own, or a
#                     program of programs/bin, or another file of programs/
# shellcheck shell=sh disable=SC2154

take_apart() {
    rm -rf "${room:?}"/* && awk -v room="$room" '
        /^== file / { part = room "/" $3; printf "" > part; next }
        /^== trace / { print substr($0, 10) > (room "/=pattern"); part = room "/=trace"; printf "" > part; next }
        /^== / { part = room "/=" $2; printf "" > part; next }
        part != "" { print > part }' "$1"
}

lines() {
    awk 'NR > 1 { print last } { last = $0 }
        END { if (sub(/\\c$/, "", last)) printf "%s", last; else if (NR > 0) print last }' "$1"
}

keys() {
    [ -s "$room/=keys" ] || return 0
    lines "$room/=keys" | LC_ALL=C awk '
        function type(text,    at, control) {
            while (match(text, /\^[?-_]|<[0-9]+>/)) {
                printf "%s", substr(text, 1, RSTART - 1)
                if (substr(text, RSTART, 1) == "^") {
                    control = index("@ABCDEFGHIJKLMNOPQRSTUVWXYZ[\\]^_", substr(text, RSTART + 1, 1)) - 1
                    printf "%c", control < 0 ? 127 : control
                } else
                    for (at = substr(text, RSTART + 1, RLENGTH - 2) + 0; at > 0; at--)
                        printf "%c", 0
                text = substr(text, RSTART + RLENGTH)
            }
            printf "%s", text
        }
        NR > 1 { printf "\n" }
        { type($0) }'
    [ "$(tail -c 3 "$room/=keys")" = '\c' ] || echo
}

words() {
    # shellcheck disable=SC2013
    for word in $(cat "$room/=words"); do
        if [ -e "$room/$word" ]; then
            echo "$room/$word"
        elif [ -e "$programs/bin/$word" ]; then
            echo "$programs/bin/$word"
        elif [ -e "$programs/$word" ]; then
            echo "$programs/$word"
        else
            echo "$word"
        fi
    done
}
