# Sourced by what builds: what is had of the Rattle kit that none of its commands leaves.
#
#   find_kit                tells where the kit lies
#   make_tools FOLDER CODE  makes FOLDER the kit's tools, but for clang: it copies the LLVM code that it is given to the file
#                           CODE, and then runs the kit's, without -O, since nobody runs what comes of that
#   copy_kit FOLDER CODE    makes FOLDER a copy of the kit, whose `rt` takes such tools
#   trial_process PATH      tells the process that runs the program of a trial build (`rt try`), if it runs by now: its words
#                           hold the path, and the kit's own loader runs it
#   copy_trial PID FOLDER   copies that program to FOLDER/program, since `rt try` removes it, and its loader with the loader's
#                           options to FOLDER/loader, a word a line
# shellcheck shell=sh

find_kit() {
    dirname "$(rt doc)"
}

make_tools() {
    kit=$(find_kit)
    mkdir -p "$1/bin" && ln -s "$kit/toolchain/lib" "$1/lib"
    for it in "$kit"/toolchain/bin/*; do
        [ "${it##*/}" = clang ] || ln -s "$it" "$1/bin/"
    done
    cat >"$1/bin/clang" <<END
#!/bin/sh
for it in "\$@"; do case \$it in *.bc) cp "\$it" "$2" ;; esac; done
exec "$kit/toolchain/bin/clang" "\$@" -O0
END
    chmod +x "$1/bin/clang"
}

copy_kit() {
    kit=$(find_kit)
    mkdir -p "$1/bin"
    for it in "$kit"/*; do
        case ${it##*/} in toolchain | bin) ;; *) ln -s "$it" "$1/" ;; esac
    done
    for it in "$kit"/bin/*; do
        case ${it##*/} in rt | rtlib.py) cp "$it" "$1/bin/" ;; *) ln -s "$it" "$1/bin/" ;; esac
    done
    make_tools "$1/toolchain" "$2"
}

trial_process() {
    # shellcheck disable=SC2013
    for process in $(grep -alF -- "$1" /proc/[0-9]*/cmdline 2>/dev/null); do
        process=${process%/cmdline}
        case $(readlink "$process/exe") in
            */ld-linux-*) echo "${process#/proc/}" && return ;;
        esac
    done
    return 1
}

# Its first four words are the loader and the loader's options.
copy_trial() {
    tr '\0' '\n' <"/proc/$1/cmdline" >"$2/words" &&
        sed 4q "$2/words" >"$2/loader" &&
        cp "$(sed -n 5p "$2/words")" "$2/part" &&
        mv "$2/part" "$2/program"
}
