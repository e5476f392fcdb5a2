# Sourced by the scripts in bin/: starts the program of the script's name with its words. That is the native one: a
# release has it in libexec/, for Linux on x86-64, and in a clone ./xv --build builds it. Else Node runs the module in
# anywhere/, which was made of the same proved code. XV_NODE=yes takes the module in any case. In a release
# `--version` tells what the program was built of.
# shellcheck shell=sh
self=$(readlink -f -- "$0" 2>/dev/null) || self=$0
top=$(dirname -- "$self")/..
name=${self##*/}
built=
if [ -e "$top/crates" ]; then
    case $name in
        xv_run) built=$top/crates/xv_run/out/xv_run ;;
        *) built=$top/crates/xv_tools/out/xv_tools ;;
    esac
    how='./xv --build builds all programs'
    [ -x "$built" ] || built=
else
    if [ "${1-}" = --version ]; then
        echo "$name of Nektavoly $(cat "$top/VERSION")"
        exec cat "$top/BUILT"
    fi
    how='page/nektavoly.html needs neither: it runs in a browser'
    if [ "$(uname -sm)" = 'Linux x86_64' ] && "$top/libexec/xv_run" --help >/dev/null 2>&1; then
        built=$top/libexec/$name
    fi
fi
if [ -z "${XV_NODE-}" ] && [ -n "$built" ]; then
    # Those that xv_tools has are names of it.
    case $built in */xv_tools) set -- "$name" "$@" ;; esac
    exec "$built" "$@"
fi
command -v node >/dev/null || {
    echo "$name: no native program starts here, and there is no node on the PATH (18.17 or later; Debian: nodejs)" >&2
    echo "$name: $how" >&2
    exit 125
}
exec node "$top/anywhere/commands/$name.mjs" "$@"
