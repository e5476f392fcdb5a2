#!/bin/bash
# lower.sh IN.wasm OUT.wasm: from a memory of 64 bits to one of 32, which each engine takes, by Debian's binaryen (version 108 in
# Debian 12: another version may give other bytes). It has no -O: that makes a module a twentieth smaller, and a long run in Node 20
# a fifth slower.
set -eu
wasm-opt --enable-memory64 --enable-bulk-memory --enable-sign-ext --enable-nontrapping-float-to-int --enable-mutable-globals \
    --enable-multivalue --memory64-lowering -o "$2" "$1"
