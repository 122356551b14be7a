#!/usr/bin/env python3
"""The places of src/ that are written in an older form, by point: design_places.py [POINT] lists them, with no argument it counts them.

1  enums of two cases of which one has no value or is a refusal; structs with a refusal, a fault or a flag beside the value; parameters and results that
   are a number for a kind or a refusal
2  functions of one shape: equal but for names, numbers and types (as the text reads, names and numbers taken out), five lines at least
3  loops that count an index or a number by hand
4  conversions between an enum and numbers or texts by a `match` or a ladder of tests, and equality written out
5  parameters that stand together in three functions or more, and a `requires` that stands in three or more
6  an array with a count beside it, and searches by hand
7  functions that take a flag which says what to do
8  proofs that walk the code: proofs/**/Proof.antt (files and lines)
"""
import glob, os, re, sys
from collections import defaultdict

ROOT = os.path.join(os.path.dirname(os.path.abspath(__file__)), "..")


def sources():
    for path in sorted(glob.glob(os.path.join(ROOT, "crates/*/src/*.rt"))):
        yield os.path.relpath(path, ROOT), open(path, encoding="utf-8").read()


FN = re.compile(r"^( *)((?:pub(?:\(crate\))? )?(?:extern \"C\" )?fn (\w+)[^\n{]*?\(([^)]*)\)([^{;]*?))\n?( *)\{\n(.*?)^\1\}", re.M | re.S)


def functions():
    """(file, line, name, parameters, clauses, body)"""
    for path, text in sources():
        for found in re.finditer(r"^( *)(?:pub(?:\(crate\))? )?(?:extern \"C\" )?fn (\w+)[^(]*\(", text, re.M):
            indent, name = found.group(1), found.group(2)
            depth, at = 1, found.end()
            while depth:
                depth += {"(": 1, ")": -1}.get(text[at], 0)
                at += 1
            parameters = text[found.end():at - 1]
            close = re.compile(r"^" + indent + r"\}", re.M).search(text, at)
            open_ = re.compile(r"(^" + indent + r"\{\n|\{\n)", re.M).search(text, at)
            if not close or not open_ or open_.start() > close.start():
                continue
            yield path, text[:found.start()].count("\n") + 1, name, parameters, text[at:open_.start()], text[open_.end():close.start()]


def split(parameters):
    out, depth, word = [], 0, ""
    for c in parameters:
        depth += {"<": 1, "[": 1, "(": 1, ">": -1, "]": -1, ")": -1}.get(c, 0)
        if c == "," and depth == 0:
            out.append(word)
            word = ""
        else:
            word += c
    out.append(word)
    return [re.sub(r"\s+", " ", re.sub(r"'\w+ ", "", p)).strip() for p in out if p.strip()]


def one():
    for path, text in sources():
        for m in re.finditer(r"enum (\w+)[^{]*\{(.*?)^\}", text, re.M | re.S):
            cases = [c for c in re.findall(r"^    (\w+)", m.group(2), re.M)]
            if len(cases) == 2 and ("(" in m.group(2) or "{" in m.group(2)):
                yield f"{path} enum {m.group(1)}: {', '.join(cases)}"
        for m in re.finditer(r"struct (\w+)[^{;]*\{(.*?)^\}", text, re.M | re.S):
            flags = re.findall(r"(refusal|fault|valid|absent|place_absent): ", m.group(2))
            if flags:
                yield f"{path} struct {m.group(1)}: {flags[0]} beside a value"
    for path, line, name, parameters, clauses, body in functions():
        for p in split(parameters):
            if re.match(r"(mut )?(kind|which|number|refusal|due|also): (u64|usize|u8)$", p):
                yield f"{path}:{line} {name}({p})"


def two():
    shapes = defaultdict(list)
    for path, line, name, parameters, clauses, body in functions():
        text = re.sub(r"//[^\n]*", "", body)
        text = re.sub(r'b?"[^"]*"', "S", text)
        text = re.sub(r"\b\d[\d_]*(u8|u64|usize|i64)?\b", "0", text)
        kept = {"let", "mut", "if", "else", "return", "while", "for", "in", "match", "loop", "true", "false", "Some", "None", "Ok", "Err", "as"}
        text = re.sub(r"[A-Za-z_]\w*", lambda m: m.group(0) if m.group(0) in kept else "x", text)
        lines = [l.strip() for l in text.split("\n") if l.strip()]
        if len(lines) >= 5:
            shapes["\n".join(lines)].append(f"{path}:{line} {name}")
    for places in shapes.values():
        if len(places) > 1:
            yield " = ".join(places)


def three():
    for path, line, name, parameters, clauses, body in functions():
        for m in re.finditer(r"\b(while [^\n{]*|loop )\{", body):
            rest = body[m.start():]
            if re.search(r"^\s*(\w+) (\+=|-=) ", rest, re.M) or re.search(r"\b(at|from|rest|end|next) = ", rest):
                yield f"{path}:{line + body[:m.start()].count(chr(10))} {name}: {m.group(1).strip()}"


def four():
    for path, line, name, parameters, clauses, body in functions():
        if len(re.findall(r"^\s*\w+::\w+(?:\([^)]*\)|\s*\{[^}]*\})? =>", body, re.M)) >= 2 and not re.search(r"\bfn\b", body):
            arms = re.findall(r"=> ([^\n]*)", body)
            if all(re.match(r"(\w+::)?\w+( \{|,|\(|$)", a) for a in arms):
                yield f"{path}:{line} {name}"
        elif re.search(r"^(same_|is_same|equal|copy_|put_number|digits?$)", name):
            yield f"{path}:{line} {name}"


def five():
    together = defaultdict(set)
    for path, line, name, parameters, clauses, body in functions():
        ps = [p for p in split(parameters) if "self" not in p]
        for n in range(2, len(ps) + 1):
            for i in range(len(ps) - n + 1):
                together[tuple(ps[i:i + n])].add((path, line, name))
    crates = lambda who: {p.split("/")[1] for p, _, _ in who}
    best = []
    for ps, who in sorted(together.items(), key=lambda x: -len(x[0])):
        if len(who) >= 3 and len(ps) >= 3:
            if not any(set(ps) <= set(q) and len(w) >= len(who) for q, w in best):
                best.append((ps, who))
    for ps, who in best:
        yield f"({', '.join(ps)}) in {len(who)} functions of {', '.join(sorted(crates(who)))}"
    facts = defaultdict(set)
    for path, line, name, parameters, clauses, body in functions():
        for m in re.finditer(r"requires(?: \w+)? \{ (.*?) \}\n", clauses + "\n"):
            for fact in re.split(r" × ", m.group(1)):
                facts[fact.strip("() ")].add(f"{path} {name}")
    for fact, who in facts.items():
        if len(who) >= 3:
            yield f"requires {fact} in {len(who)} functions"


def six():
    for path, text in sources():
        for m in re.finditer(r"struct (\w+)[^{;]*\{(.*?)^\}", text, re.M | re.S):
            if re.search(r": \[\w+; ", m.group(2)) and re.search(r"(count|length|used|n): (usize|u64)", m.group(2)):
                yield f"{path} struct {m.group(1)}: an array and a count"
    for path, line, name, parameters, clauses, body in functions():
        if re.search(r"let mut \w+ = \[0u?[0-9a-z]*; [^\]]*\]", body) and re.search(r"&\w+\[(0)?\.\.\w+\]", body):
            yield f"{path}:{line} {name}: a buffer and how much of it is used"
        if re.search(r"while [^\n]*\{\n\s*if [^\n]*==[^\n]*\{\n\s*return (i|true|Some)", body):
            yield f"{path}:{line} {name}: a search by hand"


def seven():
    for path, line, name, parameters, clauses, body in functions():
        for p in split(parameters):
            m = re.match(r"(\w+): bool$", p)
            if m and re.search(r"\bif !?" + m.group(1) + r"\b", body):
                yield f"{path}:{line} {name}({p})"


def eight():
    for path in sorted(glob.glob(os.path.join(ROOT, "crates/*/proofs/**/Proof.antt"), recursive=True)):
        yield f"{os.path.relpath(path, ROOT)}: {sum(1 for _ in open(path, encoding='utf-8'))} lines"


POINTS = [one, two, three, four, five, six, seven, eight]
if __name__ == "__main__":
    if len(sys.argv) > 1:
        print("\n".join(POINTS[int(sys.argv[1]) - 1]()))
    else:
        for n, point in enumerate(POINTS, 1):
            print(n, len(list(point())))
