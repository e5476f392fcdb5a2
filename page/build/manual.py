"""The manual's pages (docs/manual/*.md) as HTML for the page: headings with the anchors that links name, paragraphs, lists, tables,
code. A link to another page of the manual becomes `#manual=NAME&to=HEADING`, which the page opens itself; one to another file of
the repository becomes its text, with the file's path as a title, since the page has no such file. A drawing stands in the page
itself. Python alone, so that the page is built without packages; it knows the Markdown that these pages have, and no other."""
import html
import os
import re
import urllib.parse

DRAWINGS = {}  # each drawing of the manual (docs/manual/*.svg), by its name, as an address that has all of it


def anchor(heading):
    """The anchor of a heading, as readers of Markdown on the web name it."""
    return re.sub(r" ", "-", re.sub(r"[^\w\- ]", "", heading.replace("`", "").lower()))


def target(to, name):
    """The start and the end of an element for a link of the page of this name."""
    if "://" in to:
        return f'<a href="{html.escape(to)}" rel="noreferrer">', "</a>"
    path, _, heading = to.partition("#")
    page = path[:-3] if path.endswith(".md") and "/" not in path else name if not path else None
    if page is None:
        return f'<span class="outside" title="{html.escape(os.path.normpath("docs/manual/" + path))}, in the repository">', "</span>"
    return f'<a href="#manual={page}{"&amp;to=" + heading if heading else ""}">', "</a>"


def picture(found):
    """A drawing, or the words of another picture."""
    words, path = found.groups()
    return f'<img alt="{words}" src="{DRAWINGS[path]}" style="max-width: 100%">' if path in DRAWINGS else f"<i>{words}</i>"


def inline(text, name):
    """`code`, **strong**, *words that are named* and links of a line."""
    codes = []

    def keep(found):
        codes.append(f"<code>{html.escape(found[1], quote=False)}</code>")
        return f"\0{len(codes) - 1}\0"

    def link(found):
        start, end = target(found[2], name)
        return start + found[1] + end

    text = html.escape(re.sub(r"`([^`]+)`", keep, text), quote=False)
    text = re.sub(r"!\[([^]]*)\]\(([^)]+)\)", picture, text)
    text = re.sub(r"\[([^]]+)\]\(([^)]+)\)", link, text)
    text = re.sub(r"\*\*([^*]+)\*\*", r"<b>\1</b>", text)
    text = re.sub(r"(?<![\w*])\*([^*\s][^*]*)\*(?![\w*])", r"<i>\1</i>", text)
    return re.sub(r"\0(\d+)\0", lambda found: codes[int(found[1])], text)


def table(lines, name):
    rows = [[cell.strip().replace("\\|", "|") for cell in re.split(r"(?<!\\)\|", line.strip()[1:-1])] for line in lines]
    made = ["<tr>" + "".join(f"<{kind}>{inline(cell, name)}</{kind}>" for cell in row) + "</tr>" for kind, row in [("th", rows[0])] + [("td", row) for row in rows[2:]]]
    return f"<table>{''.join(made)}</table>"


def listed(lines, name):
    """A list: an item begins with `- ` or a number; what is indented below it goes on, or is a list of its own."""
    ordered = re.match(r"(\d+)\. ", lines[0])
    items = []
    for line in lines:
        if re.match(r"(- |\d+\. )", line):
            items.append([re.sub(r"^(- |\d+\. )", "", line)])
        else:
            items[-1].append(line.strip())
    made = []
    for item in items:
        inner = next((k for k, line in enumerate(item) if k and re.match(r"(- |\d+\. )", line)), len(item))
        made.append(f"<li>{inline(' '.join(item[:inner]), name)}{listed(item[inner:], name) if inner < len(item) else ''}</li>")
    start = f' start="{ordered[1]}"' if ordered and ordered[1] != "1" else ""
    return f"<ol{start}>{''.join(made)}</ol>" if ordered else f"<ul>{''.join(made)}</ul>"


def block(lines, name):
    if lines[0].startswith("    "):
        return f"<pre>{html.escape(chr(10).join(line[4:] for line in lines), quote=False)}</pre>"
    if lines[0].startswith("#"):
        depth, words = re.match(r"(#+) (.*)", lines[0]).groups()
        made = f'<h{len(depth)} id="{anchor(words)}">{inline(words, name)}</h{len(depth)}>'
        return made + (block(lines[1:], name) if len(lines) > 1 else "")
    if lines[0].startswith("|"):
        return table(lines, name)
    if re.match(r"(- |\d+\. )", lines[0]):
        return listed(lines, name)
    # A list may follow its paragraph without a blank line.
    follows = next((k for k, line in enumerate(lines) if k and re.match(r"- ", line)), len(lines))
    rest = block(lines[follows:], name) if follows < len(lines) else ""
    return f"<p>{inline(' '.join(lines[:follows]), name)}</p>{rest}"


def page_of(markdown, name):
    """A page of the manual as HTML."""
    parts = re.split(r"^```\w*\n(.*?)^```$", markdown, flags=re.M | re.S)
    made = []
    for k, part in enumerate(parts):
        if k % 2:
            made.append(f"<pre>{html.escape(part.rstrip(chr(10)), quote=False)}</pre>")
        else:
            made += [block(it.split("\n"), name) for it in re.split(r"\n[ \t]*\n", part.strip("\n")) if it.strip()]
    # Blank lines within code part it into blocks.
    return re.sub(r"</pre><pre>", "\n\n", "".join(made))


def pages(root):
    """All pages by their names, README first: in the order in which it names them."""
    folder = f"{root}/docs/manual"

    def text(name):
        with open(f"{folder}/{name}.md", encoding="utf-8") as it:
            return it.read()

    for it in sorted(os.listdir(folder)):
        if it.endswith(".svg"):
            with open(f"{folder}/{it}", encoding="utf-8") as drawing:
                DRAWINGS[it] = "data:image/svg+xml," + urllib.parse.quote(drawing.read(), safe=" =/:;,().")
    first = text("README")
    named = list(dict.fromkeys(re.findall(r"\]\(([\w-]+)\.md\)", first)))
    others = sorted(it[:-3] for it in os.listdir(folder) if it.endswith(".md") and it[:-3] not in named + ["README"])
    return {name: page_of(text(name), name) for name in ["README"] + named + others}
