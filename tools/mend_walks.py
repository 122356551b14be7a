#!/usr/bin/env python3
"""Gives the proofs of functions (proofs/F/Proof.antt) the names that today's check makes for goals, places and steps.

usage: tools/mend_walks.py NAMES [CRATE..]     NAMES is the folder that `rt names NAMES` wrote
"""
import json
import os
import re
import sys

WORD = r"[^\s(){}.;,@\"«»]+"


def plain(word):
    return word.replace("-", "_")


def table(pairs):
    """Old names before new ones, so that a name that is both is taken as the old one."""
    found = {}
    for old, new in pairs:
        found.setdefault(plain(old), new)
    for old, new in pairs:
        found.setdefault(plain(new), new)
    return found


def pieces_of(text, at):
    """The arguments that stand from `at` on, up to a parenthesis that closes or the end."""
    found, depth, start = [], 0, None
    for i in range(at, len(text)):
        sign = text[i]
        if sign in " \n" and depth == 0:
            if start is not None:
                found.append((start, i))
            start = None
            continue
        if sign in ")" and depth == 0:
            if start is not None:
                found.append((start, i))
            return found
        if start is None:
            start = i
        depth += (sign in "({[") - (sign in ")}]")
    if start is not None:
        found.append((start, len(text)))
    return found


def by_place(text, said):
    """Names each goal that stands by name in the last term by where it stands there, and says where the counts differ."""
    at = text.rfind("tie.spec")
    if at < 0:
        return text, ["no tie.spec"]
    args = [text[a:b] for a, b in pieces_of(text, at + len("tie.spec"))]
    own = [it for loop in said["loops"] for it in loop[:1]]
    args = args[2 * len(own) :]
    if len(args) != len(said["needs"]):
        return text, [f"{len(args)} answers, {len(said['needs'])} goals: {' '.join(new for _, new in said['needs'])}"]
    for word, (_, new) in zip(args, said["needs"]):
        if re.fullmatch(WORD, word):
            text = re.sub(rf"(?m)^({re.escape(word)} : )tie\.Need-{WORD}", lambda m: f"{m[1]}tie.Done-{new}", text)
    return text, []


def declarations(text):
    """The text cut where a name is declared at the left edge, each piece with the name."""
    cuts = [it.start() for it in re.finditer(rf"(?m)^(?:pub |abbrev )*{WORD} :", text)]
    cuts = [0, *cuts, len(text)] if not cuts or cuts[0] else [*cuts, len(text)]
    return [text[a:b] for a, b in zip(cuts, cuts[1:])]


def by_way(text, said):
    """Counts the steps back anew: none before a field, which a later place has too, and as many as lead to the place that a helper is about."""
    names = said["places_by_name"]
    old = [it[0] for it in said["places"]]
    parent = {new: names[old.index(it[1])] if it[1] else None for new, it in zip(names, said["places"])}
    goals = {new: at[1] for (_, new), at in zip(said["needs"], said["asked_at"])}

    def back(place):
        # (the steps inside an arm's pattern are no places of their own)
        before = parent.get(place)
        while before and re.fullmatch(rf"{re.escape(place)}-\d+", before):
            before = parent.get(before)
        return before

    def steps(place, to):
        n = 0
        while place and place != to:
            place, n = back(place), n + 1
        return n if place else None

    arms = {}
    for new, it in zip(names, said["places"]):
        arms[new] = it[2][1] if it[0].startswith("At-match") else arms.get(parent[new])
    bound = {}
    for new, it in zip(names, said["places"]):
        word = plain(it[2][0])
        if arms[new] and not it[0].startswith("At-match") and not it[3] and word not in ("enum_told", "known_told"):
            bound.setdefault(arms[new], [])
            if word not in bound[arms[new]]:
                bound[arms[new]].append(word)

    def arm_of(place, word):
        while place:
            arm = arms.get(place)
            if arm and (word in ("enum_told", "known_told") or word in bound.get(arm, [])):
                return arm
            place = parent.get(place)
        return None

    def given(piece, place):
        def turned(match):
            word = plain(re.sub(r"-in[-_].*-\d+$|-\d+$", "", match[1]))
            arm = arm_of(place, word)
            if not arm:
                return match[0]
            if match[2] == "1":
                return f".{arm}.is"
            at = match[2].count(".1")
            names = bound.get(arm, [])
            return f".{arm}.{names[at]}" if at < len(names) else match[0]

        return re.sub(rf"\.({WORD})\.given\.(1|0(?:\.1)*\.0)(?!\.?\d)", turned, piece)

    inner = lambda m: m[1] if m[1] in names else m[0]
    text = re.sub(rf"(?<=tie\.)((?:In|Then|Else|After)[-_]{WORD}?)-\d+(?=[ )])", inner, text)
    helpers = {}
    pieces = declarations(text)
    for piece in pieces:
        found = re.match(rf"(?:pub |abbrev )*({WORD}) :\s+\((\w+) : tie\.({WORD})[^()]*\)", piece)
        if found and found[3] in parent:
            helpers[found[1]] = found[3]
    done = []
    for piece in pieces:
        head = re.match(rf"(?:pub |abbrev )*({WORD}) :\s+(?:\((\w+) : tie\.({WORD})|tie\.Need-({WORD}))", piece)
        place = head and (head[3] or goals.get(head[4]))
        c = head[2] if head and head[2] else "c"
        if not place:
            done.append(piece)
            continue
        piece = given(piece, place)
        alias = {}
        for it in re.finditer(r"\blet (\w+) = (\w+)((?:\.before)*) in\b", piece):
            if it[2] == c or it[2] in alias:
                alias[it[1]] = it[3].count(".before")
        for helper, to in helpers.items():
            n = steps(place, to)
            if n is None:
                continue
            way = c + ".before" * n
            words = "|".join([rf"{c}(?:\.before)*", *[rf"{a}(?:\.before)*" for a in alias]])
            piece = re.sub(rf"(?<![\w.-])({re.escape(helper)}) (?:{words})(?![\w.'-])", rf"\1 {way}", piece)
        for name in alias:
            uses = re.findall(rf"(?<![\w.'-]){name}(?![\w'-])(.)", piece, re.S)
            if uses.count(".") == len(uses) - 1:
                piece = re.sub(rf"\blet {name} = \w+(?:\.before)+ in\b", f"let {name} = {c} in", piece)
        done.append(piece)
    return "".join(done)


def lent_of(crate):
    """The parameters of each function that are lent to be changed, by its path's end."""
    found = {}
    for folder, _, files in os.walk(f"crates/{crate}/src"):
        for name in files:
            with open(f"{folder}/{name}", encoding="utf-8") as it:
                text = it.read()
            for fn in re.finditer(r"\bfn (\w+)(?:<[^(]*>)?\(([^{;]*?)\)(?: ->|\s)", text):
                found.setdefault(fn[1], re.findall(r"(\w+): &(?:'\w+ )?mut ", fn[2]))
    return found


LENT = {}


def mend(text, said, function):
    loops = [pair[0] for pair in said["loops"]]
    text, told = by_place(text, said)
    needs = table(said["needs"])
    places = table([[it[0], new] for it, new in zip(said["places"], said["places_by_name"])])
    fields = table([it[2] for it in said["places"] if it[2][0]])
    fields = {old: new for old, new in fields.items() if plain(new) != f"{old}_1"}
    variables = {it for _, names in said["loops"] for it in names}
    fields = {old: new for old, new in fields.items() if old not in variables or plain(new) == old}
    calls = {it[2][1]: it[3] for it in said["places"] if it[3]}
    types = dict(places)
    for old, new in loops:
        types[plain(f"invariant-{old}")] = f"invariant-{new}"
        types[plain(f"decreases-{old}")] = f"decreases-{new}"

    def of_tie(match):
        word = match[1]
        if word.startswith("Done-"):
            return f"tie.Need-{word[5:]}"
        if word.startswith("Need-"):
            new = needs.get(plain(word[5:]))
            return f"tie.Need-{new}" if new else match[0]
        new = types.get(plain(word))
        return f"tie.{new}" if new else match[0]

    def of_field(match):
        new = fields.get(plain(match[1]))
        return f".{new}" if new else match[0]

    def of_lent(match):
        callee = calls.get(match[1])
        lent = LENT.get(callee.split("::")[-1], []) if callee else []
        at = int(match[3])
        if match[2] == "auto":
            return f".{match[1]}.auto.{lent[at]}" if at < len(lent) else match[0]
        return f".{match[1]}.new.{lent[at]}" if at < len(lent) else match[0]

    lines = []
    for line in text.split("\n"):
        if line.startswith("--") or line.startswith("use ") or line.startswith("pub use "):
            lines.append(line)
            continue
        line = re.sub(rf"(?<![\w.-])tie\.({WORD})", of_tie, line)
        line = re.sub(rf"\.({WORD})", lambda m: m[0] if m.string[: m.start()].endswith("tie") else of_field(m), line)
        line = line.replace(".well-formed", ".well_formed")
        line = re.sub(r"not-(?:true|false) _ (\(?[\w.'-]*\.if-[\w'-]+\.(?:true|false)\)?)", r"\1", line)
        line = re.sub(r"(?<=[\w₀'])(?:\.before)+(?=\.(?!before))", "", line)
        line = re.sub(rf"\.({WORD})\.(auto|new)\.(\d+)", of_lent, line)
        lines.append(line)
    text = by_way("\n".join(lines), said)
    name = plain(function)
    spec = lambda m: f"{name}_spec" if plain(m[1]) == name else m[0]
    return re.sub(rf"(?<![\w.-])({WORD}?)[-_]spec(?![\w-])", spec, text), told


def main():
    names, *crates = sys.argv[1:]
    for crate in os.listdir("crates"):
        for name, lent in lent_of(crate).items():
            LENT.setdefault(name, lent)
    for crate in crates or sorted(os.listdir(names)):
        path = f"{names}/{crate}/names.json"
        if not os.path.isfile(path):
            continue
        with open(path, encoding="utf-8") as it:
            said = json.load(it)
        for key, value in said.items():
            found = re.fullmatch(rf"Rattle-{crate}-proofs\.(.*)\.Lts", key)
            if not found:
                continue
            file = f"crates/{crate}/proofs/{found[1].replace('.', '/')}/Proof.antt"
            if not os.path.isfile(file):
                continue
            with open(file, encoding="utf-8") as it:
                text = it.read()
            new, told = mend(text, value, found[1].split(".")[-1])
            for it in told:
                print(f"{file}: {it}")
            if new != text:
                with open(file, "w", encoding="utf-8") as it:
                    it.write(new)


main()
