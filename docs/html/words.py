"""Makes words of the links of a release's texts that lead out of it: words.py RELEASE

A link of a page in Markdown to a file that the release doesn't hold becomes the link's words, as docs/html/links.lua does it in
HTML. Code stays as it is.
"""
import pathlib
import re
import sys

LINK = re.compile(r"(`[^`]*`)|\[((?:`[^`]*`|[^]`])*)\]\(([^)\s]+)\)")


def is_kept(page, target):
    """A link to another host, to a place in the page, or to what is there."""
    path = target.partition("#")[0]
    return not path or re.match(r"[a-z]+:", target) is not None or (page.parent / path).exists()


def in_words(page, line):
    return LINK.sub(lambda found: found[0] if found[1] or is_kept(page, found[3]) else found[2], line)


def main(release):
    for page in sorted(release.rglob("*.md")):
        is_fenced, lines = False, []
        for line in page.read_text(encoding="utf-8").split("\n"):
            is_fenced ^= line.lstrip().startswith("```")
            lines.append(line if is_fenced or line.startswith("    ") else in_words(page, line))
        page.write_text("\n".join(lines), encoding="utf-8")


main(pathlib.Path(sys.argv[1]))
