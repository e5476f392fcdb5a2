#!/bin/sh
# Goes back in the stored runs and the stories, to 20 moments of each: see README.md. By hand:
# run.sh [runs [HOW MANY] | stories [WORD]]
set -eu
here=$(cd "$(dirname "$0")" && pwd)
top=$(cd "$here/../.." && pwd)
work=$(mktemp -d)
trap 'rm -rf "$work"' EXIT
mkdir "$work/crates" "$work/files"
cp "$top/HANDLES" "$work"

# The crates below, with the libraries that are built of them.
for crate in xk_base rv64i_core elf_image phys_ram sv39_core frame_list addr_space exec_core user_copy hart_core pipe_core console_core file_table proc_table kernel_spec kcall_core uasm_core xv_machine xv_session program_files; do
    mkdir -p "$work/crates/$crate/out"
    for part in src specs proofs out/rlib; do
        [ ! -d "$top/crates/$crate/$part" ] || cp -a "$top/crates/$crate/$part" "$work/crates/$crate/$part"
    done
    grep "^$crate:" "$top/crates.txt" >> "$work/crates.txt"
done
mkdir -p "$work/crates/session_walk/src"
cp "$here/walk.txt" "$work/crates/session_walk/src/main.rt"
echo "session_walk: xk_base xv_machine xv_session program_files anyhow" >> "$work/crates.txt"

# The runs.
if [ $# -eq 0 ]; then
    python3 -B "$here/runs.py" "$work/files" runs
    mv "$work/files/runs" "$work/files/stored"
    python3 -B "$here/runs.py" "$work/files" stories
    cat "$work/files/stored" >> "$work/files/runs"
else
    python3 -B "$here/runs.py" "$work/files" "$@"
fi
cd "$work/crates/session_walk"
rt run -- "$work/files/runs"
