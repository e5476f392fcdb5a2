"""Looks at each link of each page: the file it leads to is there, and has the heading that stands after '#'; a link into
the page names an example. A path in the text, as `programs/c/lib`, is there too, if it begins with a folder of the repository.

A link whose text is a name of the code, as `two_worlds`, leads to a file in which that name stands; the statement
of a law may stand there in its place, with capitals (`TwoWorlds`). Links to other sites aren't followed, and code that is
indented or fenced has none. With --mend a link to a file that was moved leads to its new place, if one file alone has
its name and the link's name.
"""
import functools
import os
import pathlib
import re
import sys

TOP = pathlib.Path(__file__).resolve().parents[1]
FOLDERS = {"anywhere", "bench", "bin", "checks", "crates", "docs", "labs", "page", "programs"}
# A path with a word for any name, one of a reader's own, or one that is built.
NO_PATH = re.compile(r"[A-Z_]{3,}|\bN\b|\.\.$|\bmine\b|/out/|^programs/debug")


@functools.cache
def text_of(path):
    return path.read_text(encoding="utf-8")


def lines_of(page):
    """The lines of a page that aren't code, numbered from 1."""
    fenced = False
    for number, line in enumerate(text_of(page).split("\n"), 1):
        if line.lstrip().startswith("```"):
            fenced = not fenced
        elif not fenced and not line.startswith("    "):
            yield number, line


def anchors_of(page):
    """The names of a page's headings, as a browser of the repository makes them."""
    heads = [re.sub(r"^#+ ", "", line) for _, line in lines_of(page) if re.match("#+ ", line)]
    plain = [re.sub(r"\[([^]]*)\]\([^)]*\)", r"\1", it) for it in heads]
    return {re.sub(r"[^\w\- ]", "", it.lower()).replace(" ", "-") for it in plain}


def stands_in(name, target):
    """Whether a name of the code stands in a file, and a path leads to it; true of every other text."""
    if name.startswith("`crates/"):
        return (TOP / name.strip("`")).resolve() == target.resolve()
    if target.suffix not in (".rt", ".antt") or not re.fullmatch(r"`(\w+::)*\w+`", name):
        return True
    word = name.strip("`").split("::")[-1]
    capitals = "".join(it.capitalize() for it in word.split("_"))
    return re.search(rf"\b({word}|{capitals})\b", text_of(target)) is not None


def is_place_of_page(place):
    """Whether a link into the page, as #example=fork&at=3, names an example that it has; where it leads is tried by page/try/asked.mjs."""
    found = re.match(r"example=([\w-]+)(%20course)?(&|$)", place)
    folders = ["course"] if found and found[2] else ["examples", "course"]
    return found is not None and (found[1] == "shell" or any((TOP / "programs" / it / found[1] / "init.s").exists() for it in folders))


def wrong_with(page, name, link):
    """What is wrong with a link of a page, or nothing."""
    path, _, anchor = link.partition("#")
    target = page.parent / path if path else page
    if not target.exists():
        return "there is no such file"
    if target.name == "nektavoly.html" and anchor:
        return None if is_place_of_page(anchor) else "the page has no such example"
    if anchor and anchor not in anchors_of(target):
        return "there is no such heading"
    return None if stands_in(name, target) else f"{name} doesn't stand there"


def missing_paths(line, page):
    """The paths in a line that lead nowhere, from the top or from the page's folder."""
    for path in re.findall(r"`([\w.*-]+/[\w./*-]*)`", line):
        is_path = path.partition("/")[0] in FOLDERS and not NO_PATH.search(path)
        if is_path and not any(any(it.glob(path)) for it in (TOP, page.parent)):
            yield path


def wrong_links(page):
    for number, line in lines_of(page):
        for path in missing_paths(line, page):
            yield f"{page.relative_to(TOP)}:{number}: `{path}`: there is no such file"
        for name, link in re.findall(r"\[([^]]*)\]\(([^)\s]+)\)", line):
            wrong = None if re.match(r"[a-z]+:", link) else wrong_with(page, name, link)
            if wrong:
                yield f"{page.relative_to(TOP)}:{number}: {link}: {wrong}"


def new_place(page, name, link):
    """The link to the one file that has the name of the link's file, and in which the link's name stands."""
    path, mark, anchor = link.partition("#")
    found = [it for it in TOP.glob(f"crates/*/*/**/{path.rpartition('/')[2]}") if "out" not in it.parts]
    found = [it for it in found if name.startswith("`crates/") or stands_in(name, it)]
    if len(found) != 1:
        return f"[{name}]({link})"
    told = f"`{found[0].relative_to(TOP)}`" if name.startswith("`crates/") else name
    return f"[{told}]({os.path.relpath(found[0], page.parent)}{mark}{anchor})"


def mend(page):
    """Writes the page with the new places of files that were moved."""
    def mended(found):
        name, link = found[1], found[2]
        is_wrong = not re.match(r"[a-z]+:", link) and link.partition("#")[0] and wrong_with(page, name, link)
        return new_place(page, name, link) if is_wrong else found[0]
    page.write_text(re.sub(r"\[([^]]*)\]\(([^)\s]+)\)", mended, text_of(page)), encoding="utf-8")
    text_of.cache_clear()


def main(words):
    pages = [it for it in sorted(TOP.rglob("*.md")) if not {"out", ".git"} & set(it.relative_to(TOP).parts)]
    for page in pages if words == ["--mend"] else ():
        mend(page)
    wrong = [it for page in pages for it in wrong_links(page)]
    print("\n".join([*wrong, f"the links of {len(pages)} pages: {len(wrong)} lead nowhere"]))
    return 1 if wrong else 0


if __name__ == "__main__":
    sys.exit(main(sys.argv[1:]))
