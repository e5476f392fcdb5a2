#!/usr/bin/env python3
"""module_of.py PAGE.html OUT.wasm: the module that a page has inside."""
import base64, re, sys

with open(sys.argv[1]) as it:
    found = re.search(r'PAGE_DATA = \{"wasm":"([^"]*)"', it.read())
with open(sys.argv[2], "wb") as it:
    it.write(base64.b64decode(found[1]))
