#!/bin/sh
# is_current.sh [--tell]: whether the modules of the programs were built of the code that stands here. Comments, contracts, definitions
# and proofs make no difference. With --tell the status is 0 also if they are of an earlier state, which is then told. It is 1 in any
# case if a module isn't the one that STATE names. Quick; python3 alone.
cd "$(dirname "$(readlink -f "$0")")" || exit 2
for name in xv_run xv_tools; do
    grep -qx "module $name.wasm $(sha256sum <"$name.wasm" | cut -d ' ' -f 1)" STATE || {
        echo "modules: anywhere/$name.wasm isn't the one that anywhere/STATE names: build both anew by anywhere/build.sh" >&2
        exit 1
    }
done
if grep -qx "code $(python3 -B build/sources.py .. --code)" STATE; then
    echo "modules: they are of this code"
elif [ "${1-}" = --tell ]; then
    echo "modules: those in anywhere/ are of an earlier state: $(sed -n 's/^state //p' STATE)"
else
    echo "modules: those in anywhere/ are of an earlier state: build them anew by anywhere/build.sh" >&2
    exit 1
fi
