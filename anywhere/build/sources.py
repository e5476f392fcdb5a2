#!/usr/bin/env python3
"""What the modules and the page are built of, told by sums:

    sources.py ROOT --page       the sum of all that the page is built of: the code of xv_page and of the crates below it, the scripts and
                                 modules of page/ and anywhere/machine/, the programs and the manual
    sources.py ROOT --module     the sum of what the page's module is built of: the crates' code, and how it is translated
    sources.py ROOT --code       the sum of what the programs' modules are built of; anywhere/STATE has that of its modules

In the sums of code, definitions, contracts, comments and proofs are left out: no byte of a module depends on them.
"""
import hashlib
import os
import re
import sys

PROGRAMS = ("xv_run", "xv_tools")
KIT = "programs/host/kit.sh"
TRANSLATION = [f"anywhere/build/{name}" for name in ("heap.c", "keep.sh", "lower.sh", "wasi.c", "wasm.sh")] + [KIT]


def crates_below(root, names):
    """The crates of these names, and all of the repository's that they stand on."""
    lines = {}
    with open(f"{root}/crates.txt", encoding="utf-8") as it:
        for line in it:
            found = re.match(r"(\w+)(?: [^:]*)?:(.*)", line.split("#")[0])
            if found:
                lines[found[1]] = found[2].split()
    done, left = set(), list(names)
    while left:
        crate = left.pop()
        if crate in lines and crate not in done:
            done.add(crate)
            left += lines[crate]
    return sorted(done)


def files_below(root, folders):
    """The files in these folders, by their paths from the root; tests and READMEs are left out."""
    found = []
    for folder in folders:
        for at, below, names in os.walk(f"{root}/{folder}"):
            below.sort()
            code = [name for name in names if not name.endswith(".pyc") and name != "README.md"]
            found += [os.path.relpath(os.path.join(at, name), root) for name in code if "/tests/" not in f"{at}/"]
    return found


def code_of(root, names):
    """The files of code of these crates and of those below them."""
    return files_below(root, [f"crates/{crate}/src" for crate in crates_below(root, names)])


def files_of(root, what):
    """The files that the page, its module, or the programs' modules are built of."""
    if what == "--page":
        folders = ["anywhere/build", "anywhere/machine", "page/build", "page/src", "programs/bin", "programs/c/src"]
        folders += ["programs/c/lib", "programs/c/tables", "programs/examples", "programs/course"]
        manual = [path for path in files_below(root, ["docs/manual"]) if path.endswith(".md")]
        drawings = [path for path in files_below(root, ["docs/manual"]) if path.endswith(".svg")]
        return sorted(manual + drawings + [KIT] + code_of(root, ["xv_page"]) + files_below(root, folders))
    return sorted(TRANSLATION + code_of(root, ["xv_page"] if what == "--module" else PROGRAMS))


def content(path):
    """A file's bytes, with the ends of lines that git stores."""
    with open(path, "rb") as it:
        return it.read().replace(b"\r\n", b"\n")


def sum_of_code(path):
    """Of a file of code without its comments and contracts."""
    text = content(path)
    if path.endswith(".rt"):
        text = re.sub(rb"(?m)^ *(//|ghost |requires |ensures ).*\n", b"", text)
    return hashlib.sha256(text).hexdigest()


def sum_of(root, what):
    sums = hashlib.sha256()
    for path in files_of(root, what):
        sums.update(f"{path}\0{sum_of_code(f'{root}/{path}')}\n".encode())
    return sums.hexdigest()


def main():
    root, what = sys.argv[1:3]
    print(sum_of(root, what))


if __name__ == "__main__":
    main()
