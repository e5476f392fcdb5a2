#!/bin/bash
# Compares random programs with QEMU: checks/beside-qemu/run.sh [--seed N] [--programs N] [--steps N] [--jobs N]
# [--quantum N] [--turned]; see README.md. XV_RUN is the machine's program, without it the one that is built.
here=$(cd "$(dirname "$0")" && pwd)
. "$here/../programs.sh"
program=${XV_RUN:-$here/../../crates/xv_run/out/xv_run}
needs_program "$program"
if ! command -v qemu-riscv64 >/dev/null; then
    echo "there is no qemu-riscv64 on the PATH (Debian: apt-get install qemu-user)" >&2
    exit 2
fi
exec python3 -B "$here/run.py" "$@" "$program"
