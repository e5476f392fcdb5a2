#!/usr/bin/env python3
"""build_c.py REPOSITORY COMPILER FOLDER: see ../build_c.sh. COMPILER is what programs/c/tcc/build.sh has left."""
import base64
import hashlib
import json
import os
import sys

import joining

root, compiler, folder = sys.argv[1:4]


def read(path):
    with open(os.path.join(compiler, path), "rb") as it:
        return it.read()


def text(path):
    return read(path).decode()


def files_below(name):
    """The files in a folder of the compiler's and in those below it, by their paths from it."""
    top = os.path.join(compiler, name)
    found = [os.path.relpath(os.path.join(at, it), top) for at, _, names in os.walk(top) for it in names]
    return sorted(it.replace(os.sep, "/") for it in found)


if not os.path.exists(os.path.join(compiler, "tcc.wasm")):
    sys.exit(f"build_c.sh: there is no compiler in {compiler}: programs/c/tcc/build.sh makes it")
parts = {
    "worker": joining.joined(os.path.join(root, "page", "src", "c_worker.mjs")),
    "wasm": base64.b64encode(read("tcc.wasm")).decode(),
    "headers": {name: text(f"include/{name}") for name in files_below("include")},
    "objects": {name: base64.b64encode(read(f"lib/{name}")).decode() for name in files_below("lib")},
    "notice": text("NOTICE"),
    "licence": text("COPYING"),
}
sum_ = hashlib.sha256(json.dumps(parts, sort_keys=True).encode()).hexdigest()
packed = json.dumps({**parts, "sum": sum_}, ensure_ascii=True, separators=(",", ":")).replace("</", "<\\/").replace("<!--", "<\\!--")
notice = "\n".join(f"// {line}" for line in parts["notice"].splitlines())
script = f"{notice}\nglobalThis.PAGE_C = {packed};\n"
there = [os.path.join(it, "nektavoly.html") for it in (folder, os.path.join(root, "page"))]
with open(next(it for it in there if os.path.exists(it)), encoding="utf-8") as it:
    page = it.read()
mark = "<script>globalThis.PAGE_DATA = "
assert page.count(mark) == 1
for name, made in (("nektavoly-c.js", script), ("nektavoly-c.html", page.replace(mark, f"<script>\n{script}</script>\n{mark}"))):
    with open(os.path.join(folder, name), "w", encoding="utf-8", newline="\n") as it:
        it.write(made)
    print(f"{os.path.join(folder, name)}: {len(made.encode()):,} bytes")
