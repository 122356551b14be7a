#!/usr/bin/env python3
"""Gives the pages the names that the port gave definitions and lemmas: in each piece of code (between backquotes) of README.md, docs/ and tests/.

usage: tools/doc_names.py NAMES     a file of JSON: old name, new name
"""
import glob
import json
import re
import sys

WORD = r"[A-Za-z0-9_'₀′-]+"


def main():
    with open(sys.argv[1], encoding="utf-8") as it:
        names = json.load(it)
    turn = lambda code: re.sub(WORD, lambda m: names.get(m[0], m[0]), code[0])
    pages = ["README.md", *glob.glob("docs/**/*.md", recursive=True), *glob.glob("tests/**/*.md", recursive=True)]
    for page in pages:
        if page.endswith("PORT.md"):
            continue
        with open(page, encoding="utf-8") as it:
            text = it.read()
        new = re.sub(r"`[^`\n]+`", turn, text)
        if new != text:
            with open(page, "w", encoding="utf-8") as it:
                it.write(new)


main()
