"""Writes the test lines of the program `calculator` and what it must print.

Run: python3 second/lines.py, or with --check to compare only
"""

import collections
import os
import sys

sys.dont_write_bytecode = True
sys.path.insert(0, os.path.dirname(os.path.dirname(os.path.abspath(__file__))))

from second import files
from second.calculator import answer_all, lines_of
from second.line_cases import CASES, lines_asking
from second.line_rules import RULES


def answers(numbers, levels=()):
    """What an operation's lines must meet beside `ok` and `missing`."""
    return ({("ok",), ("missing",)} | {("refused", str(number)) for number in numbers}
            | {("factor", str(level)) for level in levels})


# The answers that each name can print; the lines meet every one of them.
PRINTED = {
    "gcd": answers([1, 2, 3, 4, 5, 7], range(5)),
    "div": answers([1, 2, 3, 4, 5, 6, 8]),
    "mul": answers(range(1, 7)),
    "inv": answers([1, 2, 3, 4, 5, 9], range(5)),
    "unreadable": {()},
}


def stdin():
    """Every group's lines, that before any `field` first; the last has no line end."""
    before, *rules = RULES
    lines = [*before(), *lines_of(files.contents("examples/worked.txt"))]
    lines += [line for group in rules for line in group()]
    lines += [line for group in CASES for line in lines_asking(group())]
    return b"\n".join(lines)


def answer_of(printed):
    """The name and the answer of a line, without the words of a slot or a factor."""
    name, *rest = printed.decode("ascii").split("\t")
    if name == "unreadable":
        return name, ()
    return name, tuple(rest[:2] if rest[0] in ("refused", "factor") else rest[:1])


def report(stdout):
    """How many lines for each answer of each name; none may be missing."""
    counts = collections.Counter(map(answer_of, lines_of(stdout)))
    for name, expected in PRINTED.items():
        found = sorted(answer for other, answer in counts if other == name)
        parts = [f"{' '.join(answer) or 'lines'}: {counts[name, answer]}"
                 for answer in found]
        print(f"{name}: {', '.join(parts)}")
        if set(found) != expected:
            sys.exit(f"{name}: an answer that no line meets, or another one")


def made():
    """The bytes of stdin and stdout; tells the counts."""
    given = stdin()
    printed = answer_all(given)
    report(printed)
    print(f"{len(lines_of(given))} lines of {len(given)} bytes print {len(printed)}")
    return given, printed


if __name__ == "__main__":
    sys.exit(files.write_or_compare("crates/calculator", made))
