#!/bin/bash
# Makes a release of the last commit, for all hosts: release.sh [FOLDER]. Three files come into FOLDER:
#
#   nektavoly-VERSION.tar.gz          what is handed out
#   nektavoly-VERSION-teacher.tar.gz  what isn't: the answers, and the exercises as files for grading; it is untarred over the other
#   nektavoly-VERSION.sha256          the sums of both
#
# FOLDER is made if it isn't there; without the word it is nektavoly-VERSION-release, beside the repository. A folder in the
# repository is refused, unless git ignores it.
#
# The archive holds the programs twice: for Linux on x86-64, as `./xv --build` proved and built them (libexec/), and for
# Node on every host (anywhere/). It holds the page, the extension for VS Code (nektavoly.vsix), the programs for the
# machine with their sources, and the manual and the course as HTML, with a search that needs no network, and as text; a
# link of theirs to what it doesn't hold is words. A C compiler, TinyCC with its licence, has a folder of its own,
# programs/c/tcc/out, and for the page it stands in page/nektavoly-c.js and page/nektavoly-c.html. npm takes the archive as
# a package, since package.json stands in its one folder. No file of it is a link: npm leaves links out, and Windows makes
# them for some users alone. Windows has `tar`, so there is no .zip.
#
# The same commit, kit and pandoc give the same bytes, whoever makes it, when and in which folder. pandoc is Debian's
# package of that name; 2.17 is that of Debian 12. The compiler is what programs/c/tcc/build.sh has left. BUILT in the archive names the kit.
#
#   release.sh --cut VERSION [--commit]
#
# cuts a version: what stands below [Unreleased] in CHANGELOG.md gets VERSION and today's date as its heading, and VERSION,
# package.json and the names of archives in the pages follow. Nothing is committed without --commit.
#
#   release.sh --labs FOLDER [NAME..]
#
# adds a pack for the labs to the release in FOLDER, nektavoly-VERSION-labs.tar.xz, and its sum to the others: what `lab pack`
# makes in this clone, in which `rt ci` has to have passed. Its bytes aren't the same each time.
#
#   release.sh --clone FOLDER
#
# makes FOLDER a repository for students, of the last commit: for the exercises that need a clone. It lacks what
# programs/course/teachers.txt names, and has one commit and no history. The same commit gives the same one there.
#
# An archive for students and such a repository are looked through for answers of the course (checks/secrets.py): with one
# found neither is made.
set -euo pipefail
export LC_ALL=C TZ=UTC
umask 022
# What users may have set for themselves makes no difference: no words for tools, no ends of lines, no templates of pandoc.
unset CDPATH GZIP TAR_OPTIONS POSIXLY_CORRECT
git() {
    command git -c core.autocrlf=false -c core.attributesFile=/dev/null -c log.showSignature=false "$@"
}

stop() {
    echo "release.sh: $*" >&2
    exit 1
}

usage() {
    echo 'usage: release.sh [FOLDER], release.sh --cut VERSION [--commit], release.sh --labs FOLDER [NAME..], or' \
        'release.sh --clone FOLDER; the head of release.sh says more' >&2
    exit 2
}

is_clean() {
    [ -z "$(git status --porcelain --untracked-files=all)" ] || stop "there are changes that no commit has"
}

# Makes a version of what isn't released yet, in the working tree.
cut_version() {
    local next=$1 last head files
    last=$(cat VERSION)
    [[ $next =~ ^(0|[1-9][0-9]*)\.(0|[1-9][0-9]*)\.(0|[1-9][0-9]*)$ ]] || stop "a version has three numbers, as 1.0.0: $next"
    [ "$next" != "$(printf '%s\n' "$last" "$next" | sort -V | head -n 1)" ] || stop "$next isn't above $last, which VERSION has"
    is_clean
    head="## [$next] - $(date +%F)"
    awk '/^## / { is_in = $0 == "## [Unreleased]" } is_in && /^- / { found = 1 } END { exit !found }' CHANGELOG.md ||
        stop "CHANGELOG.md has nothing below ## [Unreleased]"
    sed -i "s/^## \[Unreleased\]\$/&\n\n$head/" CHANGELOG.md
    echo "$next" >VERSION
    [ ! -e package.json ] || sed -i -E "s/^( *\"version\": *\")[^\"]*\"/\1$next\"/" package.json
    mapfile -t files < <(git grep -lF "nektavoly-$last" -- README.md CONTRIBUTING.md docs)
    [ "${#files[@]}" = 0 ] || sed -i -E "s/nektavoly-${last//./\\.}([^0-9]|\$)/nektavoly-$next\1/g" "${files[@]}"
    if [ "${2-}" = --commit ]; then
        git commit -qam "Version $next"
        echo "release.sh: version $next is committed; then: git tag v$next, ./release.sh"
    else
        echo "release.sh: this is version $next now. Look at it by git diff; then: git commit -am 'Version $next', git tag v$next, ./release.sh"
    fi
}

# Makes the folder of the release, and tells its path.
folder_for() {
    local into top
    top=$(pwd -P)
    into=$(realpath -m -- "$1")
    if [[ $into/ = "$top"/* ]] && { [ "$into" = "$top" ] || ! git check-ignore -q -- "$into"; }; then
        stop "$into lies in the repository, and git doesn't ignore it: name a folder elsewhere"
    fi
    mkdir -p -- "$into" && echo "$into"
}

# Adds a pack for the labs to a release.
add_labs() {
    local into=$1 pack
    pack=nektavoly-$(cat VERSION)
    [ -e "$into/$pack.sha256" ] || stop "$into has no release of this version: $pack.sha256"
    ! grep -q -e "-labs.tar.xz" "$into/$pack.sha256" || stop "$into has a pack for the labs already"
    ./lab pack "$into/$pack-labs.tar.xz" "${@:2}"
    (cd "$into" && sha256sum "$pack-labs.tar.xz" >>"$pack.sha256")
}

# What is a teacher's of the folder where it is called: the paths that programs/course/teachers.txt names and that are there.
of_teachers() {
    local pattern
    while read -r pattern; do
        compgen -G "$pattern" || true
    done < <(grep -v '^#' programs/course/teachers.txt)
}

# Makes a repository for students.
make_clone() {
    local into=$1 of
    is_clean
    [ ! -e "$into" ] || stop "$into is there already"
    of=$(git log -1 --format=%ct)
    mkdir -p -- "$into" && git archive HEAD | tar -x -C "$into"
    (
        cd "$into"
        of_teachers | xargs -d '\n' rm -rf --
        git init -q --template= -b main
        git add -A
        GIT_AUTHOR_DATE="$of +0000" GIT_COMMITTER_DATE="$of +0000" git -c user.name=Nektavoly -c user.email= -c commit.gpgSign=false \
            commit -q -m "Nektavoly $(cat VERSION), for students"
    )
    if ! python3 -B checks/secrets.py "$into"; then
        rm -rf -- "$into"
        stop "$into would have answers, and isn't made"
    fi
    echo "release.sh: $into, of $(git -C "$into" log -1 --format='commit %h'); then: git clone $into"
}

into=
case ${1-} in
    --clone)
        [ $# = 2 ] || usage
        into=$(realpath -m -- "$2")
        cd "$(dirname "$0")"
        make_clone "$into"
        exit
        ;;
    --labs)
        [ $# -ge 2 ] || usage
        into=$(realpath -m -- "$2")
        cd "$(dirname "$0")"
        add_labs "$into" "${@:3}"
        exit
        ;;
    --cut)
        case $#${3-} in 2 | 3--commit) ;; *) usage ;; esac
        cd "$(dirname "$0")"
        cut_version "$2" "${3-}"
        exit
        ;;
    -*) usage ;;
    '') ;;
    *) into=$(realpath -m -- "$1") ;;
esac
[ $# -le 1 ] || usage
cd "$(dirname "$0")"

version=$(cat VERSION)
name=nektavoly-$version
command -v pandoc >/dev/null || stop "there is no pandoc: apt-get install pandoc"
is_clean
programs/host/build.sh --is-current || stop "the native programs aren't proved and built of these sources: ./xv --build"
page/is_current.sh >/dev/null 2>&1 || stop "page/nektavoly.html is of other sources: page/build.sh"
anywhere/is_current.sh >/dev/null 2>&1 || stop "the modules for Node are of other sources: anywhere/build.sh"
programs/c/tcc/build.sh --is-current >/dev/null 2>&1 || stop "the C compiler isn't there, or is of other sources: programs/c/tcc/build.sh"
grep -q "\"version\": *\"$version\"" package.json || stop "package.json has another version than VERSION, $version"
grep -qF "## [$version]" CHANGELOG.md || stop "CHANGELOG.md doesn't know version $version: release.sh --cut"
into=$(folder_for "${into:-../$name-release}")

room=$(mktemp -d)
trap 'rm -rf "$room"' EXIT
export RELEASE=$room/$name
TEACHER=$room/teacher/$name
mkdir -p "$RELEASE" "$TEACHER"

# What the commit holds of it.
git archive HEAD xv xv.mjs xv.cmd package.json bin anywhere README.md CONTRIBUTING.md LICENSE VERSION CHANGELOG.md docs programs \
    page/nektavoly.html checks/sessions checks/why checks/c-programs checks/terminal checks/debugger checks/gdb checks/gdb.sh \
    checks/grading checks/programs.sh checks/parts.sh |
    tar -x -C "$RELEASE"
mv "$RELEASE/docs/html" "$room/html"
# How the proofs are made is for those who have a clone: links to these pages become words.
rm -f "$RELEASE"/docs/{MAP,THEOREM,SPECIFICATION,GATE,PROVING,DECISIONS}.md "$RELEASE/CONTRIBUTING.md"
# What makes and tries the modules is of no use without the crates.
rm -rf "$RELEASE/anywhere/build" "$RELEASE/anywhere/try" "$RELEASE"/anywhere/*.sh

# A program's own file lies in libexec/. Those that are other names of xv_tools are scripts there. bin/ has a script of each
# name, which knows --version.
mkdir "$RELEASE/libexec"
for main in crates/*/src/main.rt; do
    program=$(basename "${main%/src/main.rt}")
    cp "crates/$program/out/$program" "$RELEASE/libexec/"
done
for script in bin/*; do
    program=${script#bin/}
    [ ! -e "$RELEASE/libexec/$program" ] || continue
    cat >"$RELEASE/libexec/$program" <<END
#!/bin/sh
# $program is one of the names of xv_tools.
exec "\${0%/*}/xv_tools" $program "\$@"
END
    chmod +x "$RELEASE/libexec/$program"
done
{ git log -1 --format='commit %H of %cs'; rt version; } >"$RELEASE/BUILT"
# The extension for VS Code, which has all that it needs.
python3 -B editor/vscode/pack.py "$RELEASE/nektavoly.vsix" >/dev/null

# The way from a page's folder up to the release's.
up_from() {
    dirname "$1" | awk -F/ '{ up = $0 == "." ? "." : ".."; for (at = 2; at <= NF; at++) up = up "/.."; print up }'
}

# Makes HTML of each page of those in the lines of standard input, beside its text. Above it stand the manual, the course and a
# search.
as_html() {
    while read -r page; do
        title=$(sed -n 's/^# //p' "$RELEASE/$page" | head -n 1)
        sed "s|UP|$(up_from "$page")|g" "$room/html/above.html" >"$room/above"
        PAGE=$page pandoc --data-dir "$room/none" -f gfm -t html5 -s --metadata pagetitle="$title" -B "$room/above" \
            --lua-filter "$room/html/links.lua" --css "$(up_from "$page")/docs/style.css" -o "$RELEASE/${page%.md}.html" "$RELEASE/$page"
    done
}

cp "$room/html/style.css" "$RELEASE/docs/style.css"
# The page in the browser leads to the manual's HTML, too, and its own manual to the search.
sed -i -E -e 's/([A-Za-z0-9-]+)\.md(\\?[#"`)])/\1.html\2/g' \
    -e 's|(<select id="manual-page"[^>]*></select></label>)|\1 <a href="../docs/search.html">search</a>|' "$RELEASE/page/nektavoly.html"
grep -q 'href="../docs/search.html"' "$RELEASE/page/nektavoly.html" || stop "the page has no place for the link to the search"

# The C compiler, all but the one for this host alone, and the page's.
mkdir "$RELEASE/programs/c/tcc/out"
(cd programs/c/tcc/out && cp -r tcc.wasm lib include COPYING NOTICE SOURCES "$RELEASE/programs/c/tcc/out/")
page/build_c.sh "$RELEASE/page" >/dev/null
echo "release.sh: of it the C compiler and its library have $(du -sb --apparent-size "$RELEASE/programs/c/tcc/out" | cut -f 1) bytes, and for" \
    "the page $(cat "$RELEASE"/page/nektavoly-c.* | wc -c)"

# What is a teacher's goes apart; its pages and links are made while all that they lead to is there.
(cd "$RELEASE" && of_teachers | xargs -d '\n' -I PATH find PATH -name '*.md' | sort | as_html)
python3 -B "$room/html/words.py" "$RELEASE"
(cd "$RELEASE" && of_teachers) | while read -r its; do
    mkdir -p "$TEACHER/$(dirname "$its")"
    mv "$RELEASE/$its" "$TEACHER/$its"
done
find "$RELEASE" -name '*.md' -printf '%P\n' | sort | as_html
python3 -B "$room/html/search.py" "$RELEASE"
python3 -B "$room/html/words.py" "$RELEASE"
[ -z "$(find "$RELEASE" "$TEACHER" -type l)" ] || stop "the repository has links, which npm and Windows don't take: $(find "$RELEASE" "$TEACHER" -type l -printf '%P ')"

python3 -B checks/secrets.py "$RELEASE" || stop "the archive for students would have answers"

# Packs the folder in $1 as the archive $2, with the sums of its files in the file $3.
pack() {
    (cd "$1/$name" && find . -type f | sort | xargs -d '\n' sha256sum) >"$room/sums" && cp "$room/sums" "$1/$name/$3"
    # gzip reads a file and no pipe, so that it gets the same pieces each time.
    tar -cf "$room/packed" --sort=name --mtime="@$(git log -1 --format=%ct)" --owner=0 --group=0 --numeric-owner \
        --mode=u=rwX,go=rX,a-st --format=gnu -C "$1" "$name"
    gzip -n9 <"$room/packed" >"$into/$2"
    echo "release.sh: $into/$2, $(stat -c %s "$into/$2") bytes"
}

pack "$room" "$name.tar.gz" SHA256SUMS
pack "$room/teacher" "$name-teacher.tar.gz" SHA256SUMS-teacher
(cd "$into" && sha256sum "$name.tar.gz" "$name-teacher.tar.gz" >"$name.sha256")
echo "release.sh: $into/$name.sha256; then, as root: checks/release.sh $into"
