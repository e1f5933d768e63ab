"""Checks of the second program, against document 01 and against plain search.

Run: python3 second/selftest.py
"""

import os
import sys
import traceback

sys.dont_write_bytecode = True
sys.path.insert(0, os.path.dirname(os.path.dirname(os.path.abspath(__file__))))

from second import (
    check_calculator, check_calls, check_examples, check_gcd, check_inverse,
    check_products, check_ring, check_sequences, check_words, figures, sequence)
from second.ring import Tower, degree, one, poly_add, poly_shift, zero


class Failure(Exception):
    """A check that does not hold."""


class Counter:
    """Counts the checks made, and the runs of a sequence without number 11."""

    def __init__(self):
        self.checks = 0
        self.runs = 0

    def check(self, holds, *what):
        """One check; what it was about is told only when it fails."""
        if not holds:
            raise Failure(", ".join(str(part) for part in what))
        self.checks += 1

    def inverse(self, tower, c):
        """The inverse, with number 11 looked for."""
        return self.not_eleven(sequence.inverse(tower, c), tower, c)

    def gcd(self, tower, a, b):
        """The GCD, with number 11 looked for."""
        return self.not_eleven(sequence.gcd(tower, a, b), tower, a, b)

    def not_eleven(self, answer, *what):
        """The answer, seen not to be number 11."""
        if answer == ("refused", 11):
            raise Failure("number 11, " + ", ".join(str(part) for part in what))
        self.runs += 1
        return answer


def number_eleven(counter):
    """Number 11: its count, the longest sequences, and all runs made before."""
    limit_of_count(counter.check)
    for tower in (Tower(2, ()), Tower(6, ()), Tower(7, ((5, 0, 1),))):
        longest_sequences(counter, tower)
    counter.checks += counter.runs


def limit_of_count(check):
    """With D = 3, five remainders pass and the sixth is too many."""
    taken = 0
    for expected in range(1, 6):
        taken = sequence.count_remainder(taken, 3)
        check(taken == expected, "a remainder counted", expected)
    answer = sequence.answer_of(sequence.count_remainder, taken, 3)
    check(answer == ("refused", 11), "one remainder too many", answer)


def longest_sequences(counter, tower):
    """Each next polynomial is x times the last plus the one before.

    All quotients then have degree 1, so no sequence is longer: D remainders for
    the higher polynomial first, and one more for the lower one first.
    """
    level = len(tower.polynomials)
    low, high = (one(level),), (zero(level), one(level))
    for larger_degree in range(1, 12):
        counter.check(degree(high) == larger_degree, "degree", tower, high)
        for a, b, expected in [(high, low, larger_degree),
                               (low, high, larger_degree + 1)]:
            answer = counter.gcd(tower, a, b)
            counter.check(answer == ("done", (one(level),)), "1", tower, a, b)
            taken = len(sequence.gcd_pairs(tower, level, a, b)) - 1
            counter.check(taken == expected, "remainders", tower, a, b, taken)
        low, high = high, poly_add(tower, level, poly_shift(level, high, 1), low)


GROUPS = [
    ("figures of document 01", lambda counter: figures.run(counter.check)),
    ("ring laws", check_ring.ring_laws),
    ("division", check_ring.division),
    ("inverses", check_inverse.inverses),
    ("GCDs", check_gcd.gcds),
    ("words", check_words.words_and_values),
    ("calls and refusals", check_calls.calls_and_refusals),
    ("products and divisions", check_products.products_and_divisions),
    ("calls inverse and GCD", check_sequences.inverses_and_gcds),
    ("calculator", check_calculator.calculator),
    ("examples", check_examples.examples),
    ("number 11 never given", number_eleven),
]


def main():
    """Runs every group and tells what was checked."""
    counter = Counter()
    for name, group in GROUPS:
        before = counter.checks
        try:
            group(counter)
        except Failure as failure:
            print(f"second: FAILED in {name}: {failure}")
            return 1
        except Exception as error:
            traceback.print_exc()
            print(f"second: FAILED in {name}: {type(error).__name__} {error}")
            return 1
        print(f"{name}: {counter.checks - before} checks", flush=True)
    print(f"second: {counter.checks} checks passed")
    return 0


if __name__ == "__main__":
    sys.exit(main())
