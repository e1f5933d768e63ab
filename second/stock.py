"""Compares answers with those of PARI, a stock system, on what both define.

Run: python3 second/stock.py [--seed N] [--command COMMAND..]
Over fields, N = 0 with p prime and N = 1 with m_1 irreducible (found by PARI), every
answer is Done. Modulo a composite p the product, the division by a monic polynomial
and the inverse of a unit are compared. A GCD is not: modulo 6, of 2x + 1 and x, the
sequence shows the factor 2 where a stock system may give 1.
"""

import argparse
import collections
import json
import math
import os
import random
import shutil
import subprocess
import sys

sys.dont_write_bytecode = True
sys.path.insert(0, os.path.dirname(os.path.dirname(os.path.abspath(__file__))))

from second import cases, ring, samples, words
from second.calculator import answer_all, lines_of
from second.cases_gcd import monic_multiples
from second.line_cases import Case, extensions_of, lines_asking
from second.line_rules import line
from second.ring import Tower

PRIMES = [2, 3, 5, 7, 97, 10007, 2147483647]
COMPOSITES = [4, 6, 9, 12, 91, 65536, 2147483645, 2147483646]

# How often each prime field, field of N = 1 and composite modulus is tried.
TURNS = 12

# A case to compare: what is asked, the tower, and the values of a and of b, if any.
Question = collections.namedtuple("Question", "name tower values")

# An element of N = 1 is a polynomial in z, put at PARI's root of m_1; what is printed
# is a list of polynomials, each a list of coefficients, each a list of residues.
PARI = """
residues(p, v) = Polrev([Mod(c, p) | c <- v]);
at_root(t, c) = subst(Polrev(c, 'z), 'z, t) * t^0;
elements(t, v) = Polrev([at_root(t, c) | c <- v]);
numbers(f) = [[lift(c)] | c <- Vecrev(f)];
coefficients(t, f) = [Vecrev(lift((c * t^0).pol)) | c <- Vecrev(f)];
monic(f) = if(f == 0, f, f / pollead(f));
gcd_of(a, b) = [monic(gcd(a, b))];
div_of(a, b) = divrem(a, b);
mul_of(a, b) = [a * b];
inv_of(a) = [1 / a];
"""


# PARI.

def pari(lines):
    """What PARI prints for these lines, each line of it read as a list."""
    done = subprocess.run(["gp", "--quiet", "--fast"], input="\n".join(lines) + "\n",
                          stdout=subprocess.PIPE, text=True, check=True)
    return [json.loads(printed) for printed in done.stdout.splitlines()]


def irreducible(wanted):
    """For each p and d an irreducible polynomial of degree d modulo p."""
    found = pari([f"print(Vecrev(lift(ffinit({p}, {d}))))" for p, d in wanted])
    return [Tower(p, (tuple(m),)) for (p, _), m in zip(wanted, found)]


def pari_value(tower, name, value):
    """A value as PARI takes it: an element for `inv`, else a polynomial."""
    text = json.dumps(value)
    if ring.top_level(tower) == 0:
        return f"Mod({value}, p)" if name == "inv" else f"residues(p, {text})"
    return f"at_root(t, {text})" if name == "inv" else f"elements(t, {text})"


def pari_lines(question):
    """The lines that ask PARI and print its answer."""
    name, tower, values = question
    given = ", ".join(pari_value(tower, name, value) for value in values)
    if ring.top_level(tower) == 0:
        yield f"p = {tower.modulus};"
        yield f"print([numbers(f) | f <- {name}_of({given})])"
    else:
        m = json.dumps(tower.polynomials[0])
        yield f"t = ffgen(Mod(1, {tower.modulus}) * Polrev({m}, 'z), 'z);"
        yield f"print([coefficients(t, f) | f <- {name}_of({given})])"


def value_of(level, coefficients):
    """What PARI printed for one polynomial, as a polynomial of this program."""
    if level == 0:
        return ring.without_trailing_zeros(0, [c[0] if c else 0 for c in coefficients])
    return ring.without_trailing_zeros(
        1, [ring.without_trailing_zeros(0, c) for c in coefficients])


def answers_of_pari(asked):
    """PARI's answer to each question: a list of polynomials."""
    lines = [text for question in asked for text in pari_lines(question)]
    return [[value_of(ring.top_level(question.tower), f) for f in answer]
            for question, answer in zip(asked, pari(PARI.splitlines() + lines),
                                        strict=True)]


# The calculator.

def calculator_lines(question):
    """The lines that ask the calculator."""
    name, tower, values = question
    degrees, level = ring.degrees(tower), ring.top_level(tower)
    if name == "inv":
        operands = {"a": words.element_to_words(degrees, level, values[0])}
    else:
        operands = {letter: words.shortest_slot(degrees, f)
                    for letter, f in zip("ab", values)}
    extensions = extensions_of(degrees, words.tower_to_words(tower))
    return lines_asking([Case(tower.modulus, extensions, operands,
                              [line(name, *operands)])])


def line_expected(question, answer):
    """The line that prints PARI's answer; an inverse is a polynomial of degree 0."""
    degrees, level = ring.degrees(question.tower), ring.top_level(question.tower)
    if question.name == "inv":
        return line("inv", "ok", *words.element_to_words(degrees, level, answer[0][0]))
    first, *others = (words.shortest_slot(degrees, f) for f in answer)
    remainder = ["rem", *others[0]] if others else []
    return line(question.name, "ok", *first, *remainder)


# Questions.

def unit(rng, tower):
    """An element that has an inverse: not 0 over a field, prime to p for N = 0."""
    c = cases.element_not_zero(rng, tower)
    while ring.top_level(tower) == 0 and math.gcd(c, tower.modulus) > 1:
        c = cases.element_not_zero(rng, tower)
    return c


def defined_everywhere(rng, tower, highest):
    """Product, division by a monic polynomial, inverse of a unit."""
    level = ring.top_level(tower)
    f, g = (cases.polynomial_of_degree(rng, tower, rng.randint(-1, highest))
            for _ in range(2))
    monic = samples.random_monic(rng, tower, level, rng.randint(0, highest))
    yield Question("mul", tower, [f, g])
    yield Question("div", tower, [f, monic])
    yield Question("inv", tower, [unit(rng, tower)])


def gcds(rng, tower, highest):
    """GCDs of multiples of a third polynomial, of any two, and with a zero."""
    level = ring.top_level(tower)
    common = samples.random_monic(rng, tower, level, rng.randint(0, highest))
    scale = cases.element_not_zero(rng, tower)
    f, g = monic_multiples(rng, tower, common, *rng.choices(range(highest), k=2))
    f = ring.poly_scale(tower, level, scale, f)
    others = [samples.random_polynomial(rng, tower, level, highest) for _ in range(2)]
    for values in ([f, g], [g, f], others, [f, ()], [(), g]):
        yield Question("gcd", tower, values)


def questions(seed):
    """Every question of a seed."""
    rng = random.Random(seed)
    fields = irreducible([(p, d) for p in PRIMES for d in (2, 3, 5, 8)])
    for tower in [Tower(p, ()) for p in PRIMES] + fields:
        for highest in range(1, TURNS + 1):
            yield from defined_everywhere(rng, tower, highest)
            yield from gcds(rng, tower, highest)
    for tower in [Tower(p, ()) for p in COMPOSITES]:
        for highest in range(1, 2 * TURNS + 1):
            yield from defined_everywhere(rng, tower, highest)


# Comparing.

def agree(who, asked, printed, expected):
    """Whether every answer is PARI's; says how many are, or which one is not."""
    lines = lines_of(printed)
    if len(lines) != len(asked):
        print(f"{who}: {len(lines)} answers to {len(asked)} questions")
        return False
    for question, found, answer in zip(asked, lines, expected):
        if found != line_expected(question, answer):
            print(f"{who} differs from PARI at {question}")
            print(f"it prints {found!r}, PARI gives {answer}")
            print(b"\n".join(calculator_lines(question)).decode("ascii"))
            return False
    counts = collections.Counter(question.name for question in asked)
    parts = ", ".join(f"{name} {count}" for name, count in sorted(counts.items()))
    print(f"{who}: {len(asked)} answers agree with PARI ({parts})")
    return True


def arguments():
    """What the command line asks for."""
    parser = argparse.ArgumentParser(
        description="Compares Done answers of the second program, and of a calculator, "
                    "with PARI's. Exit status 1 where one differs, 2 without PARI.")
    parser.add_argument("--seed", type=int, default=1, metavar="N",
                        help="what the random values are made from (1)")
    parser.add_argument("--command", nargs=argparse.REMAINDER, metavar="COMMAND",
                        help="a calculator and its arguments, to compare it as well; "
                             "the last option")
    return parser.parse_args()


def main():
    """Asks PARI and the calculators the same questions."""
    given = arguments()
    if shutil.which("gp") is None:
        print("PARI's program gp is not installed; on Debian: apt-get install pari-gp")
        return 2
    asked = list(questions(given.seed))
    expected = answers_of_pari(asked)
    data = b"\n".join(text for question in asked for text in calculator_lines(question))
    if not agree("second program", asked, answer_all(data), expected):
        return 1
    if given.command:
        printed = subprocess.run(given.command, input=data, stdout=subprocess.PIPE,
                                 check=True).stdout
        return 0 if agree("COMMAND", asked, printed, expected) else 1
    return 0


if __name__ == "__main__":
    sys.exit(main())
