#!/bin/bash
# Tries a release as new users do, by hand: checks/release.sh FOLDER, where release.sh left its archives. A user of no rights
# untars it and goes through tour.sh
#
#   in a bare Debian 12, with no compiler, no kit, no python3 and no Node: by the native programs
#   in the same with nodejs, after the native programs were changed so that they don't start: by the modules
#   there with node as the only command, and an empty folder else as the PATH
#
# It makes the two systems by debootstrap, and follows all links of the HTML. It needs root, debootstrap, python3 and the
# network, and some minutes. Each thing that was tried is a line; the status is 0 if all are as they should be. BARE is
# a folder with the first system, and BARE-node is that with the second: each is made if it isn't there, and kept. Without
# BARE both are removed at the end. PATIENCE is how many seconds pass at a terminal before something is typed, 2 without it.
# HOW names some of the tours: `native node alone` without it.
set -u
here=$(cd "$(dirname "$0")" && pwd) || exit 2
folder=$(cd "${1:?a folder with the archives}" && pwd) || exit 2
command -v debootstrap >/dev/null || { echo "release.sh: there is no debootstrap: apt-get install debootstrap" >&2; exit 2; }
[ "$(id -u)" = 0 ] || { echo "release.sh: only root can make a system" >&2; exit 2; }
sums=$(cd "$folder" && ls nektavoly-*.sha256) || exit 2
name=${sums%.sha256}
[ -e "$folder/$name.tar.gz" ] || { echo "release.sh: $folder has no release, or several" >&2; exit 2; }

room=$(mktemp -d)
bare=$(realpath -m -- "${BARE-$room/bare}")
opened=
# shellcheck disable=SC2317
close_system() {
    [ -z "$opened" ] || umount "$opened/dev/pts" "$opened/proc"
    opened=
}
# shellcheck disable=SC2317
leave() {
    close_system 2>/dev/null
    rm -rf --one-file-system "$room"
}
trap leave EXIT

make_bare() {
    debootstrap --variant=minbase bookworm "$bare" >"$room/log" 2>&1 && chroot "$bare" useradd -m -s /bin/bash student
}

make_with_node() {
    cp -a "$bare" "$bare-node" && cp -L /etc/resolv.conf "$bare-node/etc/resolv.conf" &&
        chroot "$bare-node" sh -c 'apt-get update && DEBIAN_FRONTEND=noninteractive apt-get install -y --no-install-recommends nodejs' >"$room/log" 2>&1
}

# Goes through the tour of the kind $2 in the system $1.
tour() {
    echo "$2:"
    opened=$1
    mount -t proc proc "$1/proc" && mount -t devpts -o newinstance,ptmxmode=0666 devpts "$1/dev/pts" || exit 2
    ln -sf pts/ptmx "$1/dev/ptmx"
    rm -rf "${1:?}/home/student"/*
    cp "$folder/$name.tar.gz" "$folder/$name-teacher.tar.gz" "$here/release/tour.sh" "$1/home/student"
    chroot "$1" su - student -c "PATIENCE=${PATIENCE-2} bash tour.sh $name $2" || status=1
    close_system
}

status=0
(cd "$folder" && sha256sum --quiet -c "$sums") || status=1
[ -d "$bare" ] || make_bare || { tail -5 "$room/log"; exit 2; }
for how in ${HOW-native node alone}; do
    case $how in
        native)
            tour "$bare" native
            echo "the links of the HTML:"
            python3 -B "$here/html-links.py" "$bare/home/student/$name" || status=1
            ;;
        *)
            [ -d "$bare-node" ] || make_with_node || { tail -5 "$room/log"; exit 2; }
            tour "$bare-node" "$how"
            ;;
    esac
done
exit "$status"
