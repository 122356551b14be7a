#!/usr/bin/env python3
"""Brings the names of this repository's definitions and lemmas to snake case, in every .antt file and in what .rt files say in antt.

usage: tools/snake_names.py        at the top of the repository, once, after the kit's port.py

A name counts that begins with a small letter, has a capital after one or more small letters or digits, and is imported from no library.
Text in comments of .antt files is turned too, since it speaks of the names; strings and comments of .rt files are not.
With --clashes it turns nothing, and lists names that would meet another one of the same file.
"""
import collections
import glob
import re
import sys

CAMEL = r"(?<![\w'])[a-z][a-z0-9_]*(?<=[a-z0-9])[A-Z][A-Za-z0-9_]*(?![\w])"
FIXED = {"wfRel", "decLe"}
# Lemmas and variables that the kit's port.py gave the spelling that a definition gets here, by file: they get their hyphen back.
APART = {
    "no_note": ["canon_laws/proofs/BodyLines", "canon_laws/proofs/ValidRows", "theorems/proofs/Correlations"],
    "first_kind": ["file_laws/proofs/Instants", "file_laws/proofs/Selected", "file_laws/proofs/Walk"],
    "has_room": ["scan_laws/proofs/Room"],
    "at_first": ["theorems/proofs/CommentFaults"],
    "one_more": ["theorems/proofs/CommentFaults"],
    "front_of": ["theorems/proofs/Rewritten"],
    "row_step": ["theorems/proofs/WalkedRows"],
}


def own_crates():
    with open("crates.txt", encoding="utf-8") as it:
        return {line.split(":")[0].strip() for line in it if ":" in line and not line.startswith("#")}


def snake(name):
    return re.sub(r"(?<=[a-z0-9A-Z])([A-Z])", lambda m: "_" + m[0].lower(), name)


def antt_files():
    found = glob.glob("crates/*/specs/**/*.antt", recursive=True)
    return sorted(found + glob.glob("crates/*/proofs/**/*.antt", recursive=True))


def rust_files():
    return sorted(glob.glob("crates/*/src/**/*.rt", recursive=True))


def read(path):
    with open(path, encoding="utf-8") as it:
        return it.read()


def of_libraries(files, own):
    names = set(FIXED)
    for path in files:
        text = re.sub(r"--.*", "", read(path))
        for use in re.finditer(r"use ([\w.◌+·]+)\.\{([^}]*)\}", text):
            steps = use[1].split(".")
            if steps[0] != "Rattle" or steps[1] not in own:
                names.update(re.findall(CAMEL, use[2]))
    return names


def code_of(text):
    """The text of a .rt file, with its strings and comments as pieces of their own (odd ones)."""
    return re.split(r"(//[^\n]*|b?\"(?:[^\"\\]|\\.)*\")", text)


def main():
    files = antt_files()
    library = of_libraries(files, own_crates())
    names = set()
    for path in files:
        names.update(re.findall(CAMEL, re.sub(r"--.*", "", read(path))))
    turned = {name: snake(name) for name in names - library}
    back = collections.defaultdict(set)
    for old, new in turned.items():
        back[new].add(old)
    for new, olds in sorted(back.items()):
        if len(olds) > 1:
            print("together:", new, *sorted(olds))
            for old in olds:
                del turned[old]
    word = re.compile(CAMEL)
    change = lambda text: word.sub(lambda m: turned.get(m[0], m[0]), text)
    if "--clashes" in sys.argv:
        for path in files:
            text = re.sub(r"--.*", "", read(path))
            text = re.sub(r"\buse [\w.◌+·'-]+\.(?=\{)", "", text)
            present = set(re.findall(r"(?<![\w'.-])[a-z_][\w'-]*", text))
            for old in sorted(set(word.findall(text))):
                if turned.get(old) in present:
                    print(path, old, turned[old])
        return
    for name, places in APART.items():
        for place in places:
            path = f"crates/{place}.antt"
            text = re.sub(rf"(?<![\w'.-]){name}(?![\w'-])", name.replace("_", "-"), read(path))
            with open(path, "w", encoding="utf-8") as it:
                it.write(text)
    for path in files:
        text = read(path)
        new = change(text)
        if new != text:
            with open(path, "w", encoding="utf-8") as it:
                it.write(new)
    for path in rust_files():
        pieces = code_of(read(path))
        pieces[::2] = map(change, pieces[::2])
        with open(path, "w", encoding="utf-8") as it:
            it.write("".join(pieces))
    print(len(turned), "names turned")


main()
