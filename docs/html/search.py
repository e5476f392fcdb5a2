"""Writes docs/search.html of a release: a search over its HTML pages that needs no network. search.py RELEASE

A part of a page is what stands below a heading. The parts lie in the page as JSON, and search.js looks through them.
"""
import html.parser
import json
import pathlib
import sys

HERE = pathlib.Path(__file__).resolve().parent
HEADINGS = {"h1", "h2", "h3"}
SKIPPED = {"script", "style", "head", "nav"}


class Parts(html.parser.HTMLParser):
    """The parts of a page: the place of each heading, its words, and the words below it."""

    def __init__(self, text):
        super().__init__()
        self.parts, self.skipped, self.is_heading = [], 0, False
        self.feed(text)

    def handle_starttag(self, tag, attributes):
        self.skipped += tag in SKIPPED
        place = dict(attributes).get("id")
        # The title that pandoc puts above the page has a class; the page's own headings have a place.
        if tag in HEADINGS and place and not self.skipped:
            self.parts.append([place, "", ""])
            self.is_heading = True

    def handle_endtag(self, tag):
        self.skipped -= tag in SKIPPED
        self.is_heading = self.is_heading and tag not in HEADINGS
        if self.parts and tag in {"p", "li", "td", "th", "pre"}:
            self.parts[-1][2] += " "

    def handle_data(self, data):
        if self.parts and not self.skipped:
            self.parts[-1][1 if self.is_heading else 2] += data


def parts_of(release):
    """All parts: the page's path from docs/, its title, and a part's place, heading and text."""
    for path in sorted(release.rglob("*.html")):
        name = path.relative_to(release).as_posix()
        if name in ("docs/search.html", "page/nektavoly.html"):
            continue
        found = Parts(path.read_text(encoding="utf-8")).parts
        to = name.removeprefix("docs/") if name.startswith("docs/") else f"../{name}"
        for place, heading, text in found:
            yield [to, found[0][1], place, heading, " ".join(text.split())]


def main(release):
    rows = json.dumps(list(parts_of(release)), ensure_ascii=False, separators=(",", ":")).replace("</", "<\\/")
    script = (HERE / "search.js").read_text(encoding="utf-8")
    page = (HERE / "search.html").read_text(encoding="utf-8")
    (release / "docs/search.html").write_text(page.replace("SCRIPT", f"const PARTS = {rows};\n{script}"), encoding="utf-8")


main(pathlib.Path(sys.argv[1]))
