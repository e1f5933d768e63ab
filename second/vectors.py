"""Writes the test lines of the program `vectors` and what it must answer.

Run: python3 second/vectors.py, or with --check to compare only
A line of stdin is a call's name and its arguments, a lent list as its count and
its words. A line of stdout is the name, the answer, what stands beside it, and
every lent list as it must be afterwards. The leading view has no answer; the words
that it shows stand beside it, as a list.
"""

import collections
import os
import sys

sys.dont_write_bytecode = True
sys.path.insert(0, os.path.dirname(os.path.dirname(os.path.abspath(__file__))))

from second import (
    calls, cases_division, cases_gcd, cases_inverse, cases_numbers, cases_product,
    cases_slot, cases_sum, cases_tower, cases_view, files, products, sequence_calls)


def answers(numbers, levels=()):
    """What the cases of a call must meet: done, these refusals, factors at these levels."""
    return ({("done",)} | {("refused", number) for number in numbers}
            | {("factor", level) for level in levels})


# The name in a line, the call, the groups of its cases, and the answers it can give;
# number 11 is never given.
CALLS = [
    ("fraction", calls.residue_of_fraction, cases_numbers.FRACTION, answers([1, 10])),
    ("sizes", calls.work_sizes, cases_numbers.SIZES, answers([2, 5])),
    ("tower", calls.check_tower, cases_tower.TOWER, answers(range(1, 4))),
    ("slot", calls.check_slot, cases_slot.SLOT, answers(range(1, 6))),
    ("view", calls.leading_view, cases_view.VIEW, {()}),
    ("sum", calls.polynomial_sum, cases_sum.SUM, answers(range(1, 7))),
    ("difference", calls.polynomial_difference, cases_sum.SUM, answers(range(1, 7))),
    ("product", products.polynomial_product, cases_product.PRODUCT,
     answers(range(1, 8))),
    ("division", products.polynomial_division, cases_division.DIVISION,
     answers(range(1, 9))),
    ("inverse", sequence_calls.element_inverse, cases_inverse.INVERSE,
     answers([1, 2, 3, 4, 5, 7, 9], range(5))),
    ("gcd", sequence_calls.polynomial_gcd, cases_gcd.GCD,
     answers(range(1, 8), range(5))),
]

# Every call has at least so many cases.
LEAST = 1000


def fields(argument):
    """One number, the four degrees, or a list with its count in front."""
    if isinstance(argument, list):
        return [len(argument)] + argument
    return argument if isinstance(argument, tuple) else (argument,)


def line(name, *parts):
    """The name and the parts' fields, parted by tabs."""
    texts = [str(field) for part in parts for field in fields(part)]
    return "\t".join([name] + texts) + "\n"


def lines_of(name, call, groups):
    """The lines asked and answered for each case once, and the answers' counts."""
    asked, answered, counts = {}, [], collections.Counter()
    for arguments in (case for group in groups for case in group()):
        text = line(name, *arguments)
        if text not in asked:
            asked[text] = True
            answer, values, lists = call(*arguments)
            answered.append(line(name, answer, values, *lists))
            counts[answer] += 1
    return list(asked), answered, counts


def report(name, counts, expected):
    """How many cases, and how many for each answer; none may be missing."""
    parts = [f"{' '.join(map(str, answer)) or 'no answer'}: {counts[answer]}"
             for answer in sorted(counts)]
    print(f"{name}: {sum(counts.values())} cases, {', '.join(parts)}")
    if sum(counts.values()) < LEAST or set(counts) != expected:
        sys.exit(f"{name}: too few cases, or an answer that none of them gives")


def made():
    """The bytes of stdin and stdout; tells the counts."""
    stdin, stdout = [], []
    for name, call, groups, expected in CALLS:
        asked, answered, counts = lines_of(name, call, groups)
        report(name, counts, expected)
        stdin += asked
        stdout += answered
    return "".join(stdin).encode("ascii"), "".join(stdout).encode("ascii")


if __name__ == "__main__":
    sys.exit(files.write_or_compare("crates/vectors", made))
