#!/usr/bin/env python3
"""Brings the names that specs/ and proofs/ declare to one spelling, in every crate.

usage: python3 tools/respell.py [--list]     at the top of the repository; --list prints the names and changes nothing

- A word that begins with a small letter is in snake case: ringOf is ring_of, modZ is mod_z.
- Fields, constructors and definitions have no dash: lo-room is lo_room.
- In the name of a lemma a dash joins two names of definitions, functions or signs, and what else stood behind a dash hangs on by a
  low line: write-inj is write_inj, digits-length stays.
- Names of the goals that the check makes, functions of src/ and types keep their names.

It works on whole words of .rt and .antt files and of must-fail edits. It stops where two names of one file would fall together, and
where a proof has answers: it was run once, before any proof had today's form, and would take the names of goals for lemmas.
"""

import os
import re
import sys

SEPARATORS = r"[\s(){}\[\],;.:`\"]"
WORD = re.compile(r"[^\s(){}\[\],;.:`\"]+")
DECLARED = re.compile(r"^(\s*)((?:(?:pub|abbrev|unfoldable)\s+)*)([^\s:(){}.]+)(?: \{[^}]*\})?(?: [({][^:=]*)? : ")
OPENED = re.compile(r"^(\s*)(?:(?:pub|abbrev)\s+)*(data|record|module)\s+(\S+)")
FUNCTION = re.compile(r"^\s*(?:pub )?(?:ghost )?fn ([a-z_0-9]+)")
# names whose plain spelling another name of the same file has
APART = {"level-of": "shown_level", "inForm": "is_in_form", "gcd-work": "work_of_gcd", "inverse-work": "work_of_inverse", "numberBy": "fraction_number_by"}
# words of the library that join as names do
LIBRARY = set("length set take drop get_or append reverse map pos neg nat_abs replicate".split())


def files(root):
    for folder, dirs, names in os.walk(os.path.join(root, "crates")):
        dirs[:] = sorted(d for d in dirs if d != "out")
        for n in sorted(names):
            if n.endswith((".antt", ".rt", ".edit")):
                yield os.path.join(folder, n)


def snake(part):
    """One part of a name: a capital inside it begins a word."""
    if not part or not (part[0].islower() or part[0] in "_") or not part.isascii():
        return part
    return re.sub(r"(?<=[a-z0-9])([A-Z])", lambda m: "_" + m.group(1).lower(), part)


def plain(part):
    return re.fullmatch(r"[a-z0-9_']+", part) is not None


def declared(root):
    """What specs/ and proofs/ declare: members (fields and constructors), definitions that unfold, other names, types; and functions."""
    members, definitions, others, types, functions = set(), set(), set(), set(), set()
    for path in files(root):
        with open(path, encoding="utf-8") as f:
            lines = f.read().split("\n")
        if path.endswith(".rt"):
            functions |= {m.group(1) for m in map(FUNCTION.match, lines) if m}
            continue
        if not path.endswith(".antt"):
            continue
        goals = "/Proof" in path
        block = None
        for line in lines:
            if line.strip().startswith("--") or not line.strip():
                continue
            depth = len(line) - len(line.lstrip())
            if block is not None and depth <= block[1]:
                block = None
            m = OPENED.match(line)
            if m:
                if m.group(2) != "module":
                    types.add(m.group(3))
                    block = (m.group(2), depth)
                continue
            m = DECLARED.match(line)
            if not m or line.lstrip().startswith(("use ", "open ", "let ")):
                continue
            name = m.group(3)
            if block is not None:
                members.add(name)
            elif "tie.Need" in line or "tie.Invariant" in line or (goals and name.endswith("-spec")):
                continue
            elif "abbrev" in m.group(2) or "unfoldable" in m.group(2):
                definitions.add(name)
            else:
                others.add(name)
    return members, definitions, others, types, functions


def spelt(name, lemma, names):
    parts = [snake(p) for p in name.split("-")]
    new = parts[0]
    for before, part in zip(parts, parts[1:]):
        named = all(p in names or not p.isascii() or p in "*+" for p in (before, part))
        new += ("-" if lemma and named or before[0].isupper() else "_") + part
    return new


def spellings(root):
    """The new spelling of each name that changes. A lemma that would have a definition's name ends in _lem."""
    members, definitions, others, types, functions = declared(root)
    names = types | functions | LIBRARY | {snake(d) for d in definitions if "-" not in d}
    to = {}
    for name in members | definitions | others:
        if "" in name.split("-") or name in types or name[0].isupper() and "-" not in name:
            continue
        to[name] = APART.get(name) or spelt(name, name in others, names)
    taken = {to.get(d, d) for d in definitions}
    for name in others - definitions - members:
        if "-" in name and to.get(name, name) in taken:
            to[name] += "_lem"
    return {a: b for a, b in to.items() if a != b}


def turned(text, to):
    return WORD.sub(lambda m: to.get(m.group(0), m.group(0)), text)


def main(argv):
    root = "."
    if any("/proofs/" in path and path.endswith("/Answers.antt") for path in files(root)):
        print("the names are spelt already: nothing was written")
        return 1
    to = spellings(root)
    if argv == ["--list"]:
        print("\n".join(f"{a} {b}" for a, b in sorted(to.items())))
        return 0
    clash = 0
    for path in files(root):
        if not path.endswith(".antt") or "/Proof" in path:
            continue
        with open(path, encoding="utf-8") as f:
            text = f.read()
        code = "\n".join(l.split("--")[0] for l in text.split("\n"))
        seen = {}
        for word in set(WORD.findall(re.sub(r"(?<=[\w')])\.[^\s(){}\[\],;.]+", " ", code))):
            new = to.get(word, word)
            if new in seen:
                print(f"{path}: {seen[new]} and {word} would both be {new}")
                clash += 1
            seen[new] = word
    if clash:
        print(f"{clash} names fall together; nothing was written")
        return 1
    for path in files(root):
        with open(path, encoding="utf-8") as f:
            text = f.read()
        new = turned(text, to)
        if new != text:
            with open(path, "w", encoding="utf-8") as f:
                f.write(new)
    print(f"{len(to)} names")
    return 0


if __name__ == "__main__":
    raise SystemExit(main(sys.argv[1:]))
