#!/usr/bin/env python3
"""Counts in src/ the places of docs/DESIGN-PASS.md, point by point, and lists them with --list.

usage: python3 tools/places.py [--list] [FOLDER]
"""
import difflib, glob, os, re, sys

LIST = "--list" in sys.argv
FOLDER = ([a for a in sys.argv[1:] if a != "--list"] or ["."])[0]
FILES = {f[len(FOLDER.rstrip("/")) + 1:]: open(f, encoding="utf-8").read() for f in sorted(glob.glob(FOLDER + "/crates/*/src/*.rt"))}
FN = re.compile(r"\bfn (\w+)(?:<[^>(]*>)?\(", re.S)


def closing(s, i, a, b):
    """The index behind the bracket that closes the one at i."""
    depth = 0
    while i < len(s):
        depth += (s[i] == a) - (s[i] == b)
        i += 1
        if depth == 0:
            return i
    return i


def functions():
    """Each function: file, name, parameters by name, body."""
    for f, s in FILES.items():
        s = re.sub(r"//[^\n]*", "", s)
        for m in FN.finditer(s):
            end = closing(s, m.end() - 1, "(", ")")
            names = re.findall(r"(?:^|,)\s*(?:mut )?&?(?:mut )?(\w+)(?::|(?=,|$))", re.sub(r"[\[<][^\]>]*[\]>]", "", s[m.end():end - 1]))
            body = re.compile(r"^\{|(?<=[\w>\]) ])\{$|(?<=[\w>\]) ]) \{\n", re.M).search(s, end)
            if body:
                start = s.index("{", body.start())
                yield f, m.group(1), names, s[start:closing(s, start, "{", "}")]


ALL = list(functions())


def lines(pattern):
    """The lines that a pattern finds, comments and clauses aside."""
    return [f"{f}:{n}: {l.strip()}" for f, s in FILES.items() for n, l in enumerate(s.split("\n"), 1)
            if re.search(pattern, l) and not l.strip().startswith(("//", "ghost", "requires", "ensures"))]


def together(*names):
    return [f"{f}: {n}" for f, n, p, _ in ALL if all(x in p for x in names)]


def twins():
    """Pairs of functions whose bodies differ only in names and numbers."""
    shape = [(f, n, re.findall(r"\w+|[^\w\s]", re.sub(r"\b[a-z]\w*\b(?!\s*!)|\b\d+\b", lambda m: m.group() if m.group() in
             ("if", "else", "while", "for", "in", "let", "mut", "return", "match", "break") else "v", b))) for f, n, _, b in ALL]
    found = []
    for i, (f, n, a) in enumerate(shape):
        for g, m, b in shape[:i]:
            if len(a) > 60 and abs(len(a) - len(b)) < 12 and difflib.SequenceMatcher(None, a, b, False).ratio() > 0.96:
                found.append(f"{g}: {m} and {f}: {n}")
    return found


def proofs(pattern):
    return [f"{f}: {l}" for f in sorted(glob.glob(FOLDER + "/crates/*/proofs/**/Answers.antt", recursive=True))
            for l in open(f, encoding="utf-8") if re.match(pattern, l)]


COUNTS = [
    ("1 enums", lines(r"\benum \w+")),
    ("1 tests of a refusal's number", lines(r"if 0 < (view_)?number")),
    ("1 a flag that says which of two things beside it holds", [f"{f}: {n}: {x}" for f, n, p, _ in ALL for x in p if x in ("x_in", "y_in", "e_in", "u_in")]
        + lines(r"^\s+(pub )?(x_in|y_in|whole|named|field|more|stored): bool,") ),
    ("2 pairs of functions that differ in names and numbers", twins()),
    ("3 loops by while", lines(r"^\s*('\w+: )?while ")),
    ("4 conversions by as", lines(r" as (u|i)(8|16|32|64|size)\b")),
    ("4 comparisons by hand", lines(r"fn (same|same_word|larger|call_named)\b")),
    ("5 d, z together", together("d", "z")),
    ("5 e, e_in, ea together", together("e", "e_in", "ea")),
    ("5 x, x_in, a or y, y_in, b or u, u_in, h together", together("x", "x_in", "a") + together("y", "y_in", "b") + together("u", "u_in", "h")),
    ("5 p, n, the degrees and the tower's words together", together("p", "n", "e", "t") + together("p", "n", "degrees", "tower")),
    ("5 nine or more stores of the calculator together", together("tower", "a", "b", "g", "v", "out")),
    ("5 functions of eight or more parameters", [f"{f}: {n}: {len(p)}" for f, n, p, _ in ALL if len(p) > 7]),
    ("6 a buffer and how much of it is held", together("out", "held") + together("store", "field", "s")),
    ("7 a flag that says what to do", [f"{f}: {n}: {x}" for f, n, p, _ in ALL for x in p if x in ("neg", "keep", "divides")]),
    ("8 answers", proofs(r"(abbrev )?pub [^ ]+ : ")),
    ("8 lines that name a step of the code", proofs(r"    let ")),
]
for name, found in COUNTS:
    print(f"{len(found):4}  {name}")
    if LIST:
        for x in found:
            print(f"        {x}")
