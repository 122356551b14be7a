#!/usr/bin/env python3
"""Every wrong program of this repository: the edits that the gate tries (crates/NAME/must-fail) and further ones (tests/edits/NAME).

    tests/edits.py stand [NAME..]     the text that each edit changes stands once in the file that it names
    tests/edits.py run [NAME..]       applies each edit of the named libraries (of all) to a copy without proofs, compiles the programs that
                                      reach it with `rt try`, and says whether one prints something else than is stored: an edit that
                                      none tells from the right program is printed as NOT SEEN
    tests/edits.py refused [NAME..]   the prover must refuse each further edit (`rt must-fail` in a copy); those of the gate are the gate's

The edits of programs speak of reading past an end or going on for ever, an edit of a definition or of a promise changes no code, and the doors
for C are in no program of crates/, so they are only refused, not run. Exit status 0: all stand, all seen, or all refused."""
import shutil
import subprocess
import sys
import tempfile
from pathlib import Path

root = Path(__file__).resolve().parent.parent
needs = {}
words_of = {}
for line in (root / "crates.txt").read_text().splitlines():
    words, colon, names = line.split("#")[0].partition(":")
    if colon:
        words_of[words.split()[0]] = " ".join(words.split())
        needs[words.split()[0]] = names.split()


def program(name):
    return (root / "crates" / name / "src/main.rt").is_file()


def reached(name):
    found, to_do = set(), [name]
    while to_do:
        here = to_do.pop()
        if here in needs and here not in found:
            found.add(here)
            to_do += needs[here]
    return found


def edits(name):
    return sorted((root / "crates" / name / "must-fail").glob("*.edit")) + sorted((root / "tests/edits" / name).glob("*.edit"))


def parts(edit):
    lines = edit.read_text().split("\n")
    return {word: next(line[len(word) + 2:] for line in lines if line.startswith(word + ": ")) for word in ("file", "old", "new")}


def has_code(name):
    return any(line.strip() and not line.lstrip().startswith("//") for file in (root / "crates" / name / "src").glob("*.rt") for line in file.read_text().splitlines())


def bare_copy(work, name):
    """The crates that a program reaches, without proofs and without crates that have no code."""
    crates = [crate for crate in needs if crate in reached(name) and has_code(crate)]
    listed = []
    for crate in crates:
        shutil.copytree(root / "crates" / crate, work / "crates" / crate, ignore=shutil.ignore_patterns("proofs", "must-fail", "out"))
        listed.append(words_of[crate] + ": " + " ".join(need for need in needs[crate] if need in crates or need not in needs))
    (work / "crates.txt").write_text("\n".join(listed) + "\n")
    (work / "cases").mkdir()
    for stream, case in ("stdin", "stored"), ("stdout", "stored.stdout"):
        shutil.copy(root / "crates" / name / stream, work / "cases" / case)


def promised(crate, change):
    """Whether an edit changes a promise, which is no code."""
    lines = (root / "crates" / crate / change["file"]).read_text().splitlines()
    return any(line.lstrip().startswith("ensures") for line in lines if change["old"] in line)


def tells(work, name):
    """Whether a program, compiled and run, prints something else than is stored, faults or does not end."""
    tried = subprocess.run(["rt", "try", "--steps", "1", "--cases", work / "cases"], cwd=work / "crates" / name, capture_output=True, text=True)
    if tried.returncode not in (0, 4, 5, 6):
        sys.exit(f"rt try did not run {name}:\n{tried.stdout[-2000:]}{tried.stderr[-2000:]}")
    return tried.returncode != 0


def stand(names):
    all_stand = True
    for crate in names:
        for edit in edits(crate):
            change = parts(edit)
            file = root / "crates" / crate / change["file"]
            times = file.read_text().count(change["old"]) if file.is_file() else 0
            if times != 1:
                all_stand = False
                print(f"{edit.relative_to(root)}: its old text stands {times} times in {change['file']}")
    return all_stand


def run(names):
    programs = [name for name in needs if program(name)]
    unseen = seen = 0
    with tempfile.TemporaryDirectory() as folder:
        copies = {}
        for name in programs:
            copies[name] = Path(folder) / name
            bare_copy(copies[name], name)
            if tells(copies[name], name):
                sys.exit(f"{name} does not print what is stored")
        for crate in names:
            by_none = program(crate) or not any(crate in reached(p) for p in programs)
            for edit in [] if by_none else edits(crate):
                change, by = parts(edit), ""
                if change["file"].startswith("specs/") or promised(crate, change):
                    continue
                for name in (p for p in programs if crate in reached(p)):
                    file = copies[name] / "crates" / crate / change["file"]
                    right = file.read_text()
                    if right.count(change["old"]) != 1:
                        sys.exit(f"{edit}: its old text does not stand once in {change['file']}")
                    file.write_text(right.replace(change["old"], change["new"]))
                    told = tells(copies[name], name)
                    file.write_text(right)
                    if told:
                        by = name
                        break
                seen, unseen = seen + bool(by), unseen + (not by)
                print(f"{crate}/{edit.stem}: {'seen by ' + by if by else 'NOT SEEN'}", flush=True)
    print(f"{seen} seen, {unseen} not seen")
    return unseen == 0


def refused(names):
    with tempfile.TemporaryDirectory() as folder:
        work = Path(folder) / "copy"
        work.mkdir()
        shutil.copy(root / "crates.txt", work)
        shutil.copytree(root / "crates", work / "crates", ignore=shutil.ignore_patterns("must-fail", "out"))
        for crate in names:
            if (root / "tests/edits" / crate).is_dir():
                shutil.copytree(root / "tests/edits" / crate, work / "crates" / crate / "must-fail")
        return subprocess.run(["rt", "must-fail", *names], cwd=work).returncode == 0


if __name__ == "__main__":
    words = sys.argv[1:]
    ways = {"stand": stand, "run": run, "refused": refused}
    if not words or words[0] not in ways or any(name not in needs for name in words[1:]):
        sys.exit(__doc__)
    sys.exit(0 if ways[words[0]](words[1:] or [name for name in needs if edits(name)]) else 1)
