#!/bin/sh
# look.sh FOLDER [PAGE.html]: tries the page in Chromium as a student would: whether anything is lost or shown wrong,
# whether bad links and files are told, whether all is reached by keys, can be heard and seen, and nothing is cut off,
# whether a record stands there as in the tools, whether links and questions are answered, what a lecture wants, and what
# it shows of programs in C; of those that are written on the page, and whether exercises 5, 15 and 16 can be done there,
# if nektavoly-c.js lies beside it (build_c.sh). It takes pictures into the folder. With
# BROWSER=firefox it takes Firefox. It needs node and the browser (Debian's nodejs, chromium and firefox-esr). The status
# is 1 if something isn't as it should be, and 2 if it can't be tried.
cd "$(dirname "$(readlink -f "$0")")" || exit 2
browser=chromium; [ "${BROWSER-}" != firefox ] || browser=firefox-esr
command -v node >/dev/null || { echo "look.sh: there is no node: apt-get install nodejs" >&2; exit 2; }
command -v $browser >/dev/null || { echo "look.sh: there is no $browser: apt-get install $browser" >&2; exit 2; }
page=${2-nektavoly.html} folder=${1:?a folder for the pictures}
status=0
tries='look lossless kept outside reach by_keys hear breaks runs opened lecture refused plain asked writing c'
[ ! -e "$(dirname "$page")/nektavoly-c.js" ] || tries="$tries own_c c_exercises"
for try in $tries; do node "try/$try.mjs" "$page" "$folder" || status=1; done
exit $status
