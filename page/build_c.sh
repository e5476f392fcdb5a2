#!/bin/sh
# build_c.sh [FOLDER]: the C compiler for the page, of what programs/c/tcc/build.sh has left in the folder programs/c/tcc/out, or in XV_TCC.
# Two files come into FOLDER, beside the nektavoly.html there; without FOLDER into this one:
#
#   nektavoly-c.js    the compiler, its library, its licence: the page takes it if it lies beside it and there is a source in C
#   nektavoly-c.html  the page with all of that inside: that of FOLDER, or that which stands here
#
# Neither is a part of a clone. The same sources give the same bytes. It needs python3.
set -eu
here=$(dirname "$(readlink -f -- "$0")")
exec python3 -B "$here/build/build_c.py" "$(dirname "$here")" "${XV_TCC:-$here/../programs/c/tcc/out}" "${1:-$here}"
