#!/usr/bin/env python3
"""build_page.py MODULE.wasm SUM REPOSITORY OUT.html [NOTE]: the page, one file with all that it needs inside. SUM is that of the module
before it was lowered, with a memory of 64 bits, which stands at the page's foot.

The modules of page/src and of anywhere/machine are joined (joining.py). The programs, the examples and the manual (docs/manual/*.md, by manual.py) are read
from the repository. The same inputs give the same bytes."""
import base64, json, os, sys

module, sum_of_64_bits, root, out = sys.argv[1:5]
note = "".join(sys.argv[5:])
sys.path.append(os.path.join(root, "anywhere", "build"))
import joining
import examples
import manual
import packing
import sources
here = os.path.join(root, "page", "src")


def read(path):
    with open(path, "rb") as it:
        return it.read()


def text(path):
    return read(path).decode()


def in_c():
    """What the page shows of the programs in C: the tables of their lines, and the sources that these name."""
    tables = {name: text(f"{root}/programs/c/tables/{name}.lines") for name in examples.PROGRAMS}
    named = sorted({row[5:] for table in tables.values() for row in table.split("\n") if row.startswith("file ")})
    folders = [f"{root}/programs/c/{it}" for it in ("src", "lib")]
    return {"tables": tables, "sources": {name: text(f"{folder}/{name}") for name in named for folder in folders if os.path.exists(f"{folder}/{name}")}}


def smaller(value):
    return packing.packed(json.dumps(value, ensure_ascii=False, separators=(",", ":")))


def packed(value):
    return json.dumps(value, ensure_ascii=True, separators=(",", ":")).replace("</", "<\\/").replace("<!--", "<\\!--")


page = text(os.path.join(here, "page.html"))
sum_ = sources.sum_of(root, "--page")
data = {
    "wasm": base64.b64encode(read(module)).decode(),
    "worker": joining.joined(os.path.join(here, "worker.mjs")),
    "programs": {name: base64.b64encode(read(f"{root}/programs/bin/{name}")).decode() for name in examples.PROGRAMS},
    "examples": examples.examples(root),
    "slides": examples.slides(root),
    "manual": smaller(manual.pages(root)),
    "c": smaller(in_c()),
    "built": sum_[:16],
}
# MODULE_SUM: that of a module of an earlier state; then the page isn't of the sources that stand here.
earlier = os.environ.get("MODULE_SUM")
sum_of_module = earlier or ("unproved" if note else sources.sum_of(root, "--module"))
parts = {
    "/*STYLE*/": text(os.path.join(here, "style.css")),
    "/*DATA*/": f"globalThis.PAGE_DATA = {packed(data)};",
    "/*SCRIPT*/": joining.joined(os.path.join(here, "main.mjs")).replace("</", "<\\/"),
    "/*BUILT*/": f"{note}Built of the sources with the sum <code>{sum_[:16]}</code>; the module has {len(read(module)):,} bytes.<!-- module {sum_of_module} --><!-- module of 64 bits {sum_of_64_bits} --><!-- sources {'earlier' if earlier else sum_} -->",
}
for mark, value in parts.items():
    assert page.count(mark) == 1, mark
    page = page.replace(mark, value)
with open(out, "w", newline="\n") as it:
    it.write(page)
print(f"{out}: {len(page.encode()):,} bytes")
