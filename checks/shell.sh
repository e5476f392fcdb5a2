#!/bin/sh
# shell.sh [FILE..]: whether shellcheck (Debian: shellcheck) warns of any shell script of the repository, or of these files.
# If there is no shellcheck, it says so, and its status is 0.
cd "$(dirname "$0")/.." || exit 2
command -v shellcheck >/dev/null || {
    echo "shell scripts: not looked at, since there is no shellcheck"
    exit 0
}
files=${*:-$(git ls-files 2>/dev/null)}
set --
for file in $files; do
    case $(head -n 1 "$file" 2>/dev/null | tr -d '\0') in
        '#!/bin/sh' | '#!/bin/bash') set -- "$@" "$file" ;;
    esac
done
[ $# = 0 ] || shellcheck -x -P SCRIPTDIR -S warning "$@" || exit 1
echo "shell scripts: shellcheck warns of none of $#"
