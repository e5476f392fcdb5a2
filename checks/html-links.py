#!/usr/bin/env python3
"""Follows each link of the HTML pages below a folder, by hand: checks/html-links.py FOLDER

A link to a file must lead to one, and a link to a place in a page to an element of that name. So must the links to the
manual that the page in the browser makes when it runs: they stand in its scripts. Links in texts (.md) must lead to files. Links
to other hosts aren't followed, and neither are those of pages that a check compares with (checks/grading/stored). A line for each that leads nowhere; the status is 0 if there is none.
"""
import html.parser
import os
import re
import sys
import urllib.parse

# What a script of page/nektavoly.html has of the manual: a path, or a page's name with a place in it.
IN_SCRIPTS = re.compile(r"(\.\./docs/[\w./-]+\.(?:html|md)(?:#[\w-]+)?)|\"(\w[\w-]*\.(?:html|md)(?:#[\w-]+)?)\"")


class Page(html.parser.HTMLParser):
    """The names of a page's elements, and where its links lead."""

    def __init__(self, path):
        super().__init__()
        self.names, self.targets = set(), []
        self.is_script = False
        self.has_scripts_links = path.endswith("/nektavoly.html")
        with open(path, encoding="utf-8") as file:
            self.feed(file.read())

    def handle_starttag(self, tag, attributes):
        self.is_script = tag == "script"
        for name, value in attributes:
            if name == "id" or (tag == "a" and name == "name"):
                self.names.add(value)
            if value and ((tag, name) in (("a", "href"), ("link", "href"), ("img", "src"), ("script", "src"))):
                self.targets.append(value)
            if name == "data-help":
                place = re.sub("[^a-z ]", "", value.lower()).replace(" ", "-")
                self.targets.append(f"../docs/manual/page.html#{place}")

    def handle_endtag(self, tag):
        self.is_script = self.is_script and tag != "script"

    def handle_data(self, data):
        if self.is_script and self.has_scripts_links:
            self.targets += [path or f"../docs/manual/{name}" for path, name in IN_SCRIPTS.findall(data)]


def is_own_place(page, place):
    """Whether the page in the browser finds the place itself: an example, or a page of the manual inside it."""
    is_page = page.endswith(("/nektavoly.html", "/nektavoly-c.html"))
    return is_page and re.match(r"(example|manual)=", place) is not None


def wrong_links(pages):
    for path, page in sorted(pages.items()):
        for target in page.targets:
            if urllib.parse.urlparse(target).scheme:
                continue
            file, _, place = target.partition("#")
            folder = os.path.dirname(path)
            to = os.path.realpath(os.path.join(folder, urllib.parse.unquote(file))) if file else path
            if not os.path.exists(to):
                yield path, target, "there is no such file"
            elif place and to in pages and not is_own_place(to, place) and urllib.parse.unquote(place) not in pages[to].names:
                yield path, target, "the page has no such place"


def wrong_links_of_text(path):
    """The links of a text, but for its code, to files that aren't there."""
    with open(path, encoding="utf-8") as file:
        text = re.sub(r"(?ms)^```.*?^```$|^    .*?$|`[^`\n]*`", "", file.read())
    for target in re.findall(r"\]\(([^)\s#]+)", text):
        if not urllib.parse.urlparse(target).scheme and not os.path.exists(os.path.join(os.path.dirname(path), target)):
            yield path, target, "there is no such file"


def main():
    if len(sys.argv) != 2:
        sys.exit(__doc__)
    found = [os.path.join(at, name) for at, _, names in os.walk(sys.argv[1]) for name in names]
    paths = [path for path in found if path.endswith(".html") and "/checks/grading/stored/" not in path]
    pages = {os.path.realpath(path): Page(path) for path in paths}
    texts = [path for path in found if path.endswith(".md")]
    wrong = [*wrong_links(pages), *(it for path in sorted(texts) for it in wrong_links_of_text(path))]
    for path, target, why in wrong:
        print(f"{os.path.relpath(path, sys.argv[1])}: {target}: {why}")
    count = sum(len(page.targets) for page in pages.values())
    print(f"{count} links of {len(pages)} pages, and those of {len(texts)} texts: {len(wrong)} lead nowhere")
    sys.exit(1 if wrong or not pages else 0)


main()
