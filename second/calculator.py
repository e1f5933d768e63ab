"""The calculator of document 01: bytes on standard input to bytes on standard output.

Run: python3 second/calculator.py < FILE
"""

import os
import re
import sys
from collections import namedtuple

sys.dont_write_bytecode = True
sys.path.insert(0, os.path.dirname(os.path.dirname(os.path.abspath(__file__))))

from second import words
from second.products import polynomial_division, polynomial_product
from second.sequence_calls import element_inverse, polynomial_gcd

# 'a line has at most 8,192 bytes, its line end (byte 10) not counted, and carries at
# most 512 words'.
LINE_BYTES, LINE_WORDS = 8192, 512

# 'Each answer slot lent is the longest allowed one within 4,096 words (inv: S_N
# words); the work store has 8,192.'
ANSWER_WORDS, WORK_WORDS = 4096, 8192

# 'A number is an optional minus and 1 to 10 digits'.
NUMBER = re.compile(rb"-?[0-9]{1,10}")

# What the lines `field` and `ext` give to every call. The tower's words are those of
# the `ext` lines as they stand, the last line's first.
Ring = namedtuple("Ring", "modulus levels degrees tower")


class Unreadable(Exception):
    """The line prints `unreadable` and its number, and changes nothing."""


def numbers(fields):
    """The fields as numbers."""
    if not all(NUMBER.fullmatch(field) for field in fields):
        raise Unreadable
    return [int(field) for field in fields]


def words_carried(fields):
    """'`ext` and `poly` carry at least one word', a line 'at most 512'."""
    if not 1 <= len(fields) <= LINE_WORDS:
        raise Unreadable
    return numbers(fields)


# What is lent to a call.

def size_of_element(ring):
    """S_N; 0 where there is none, since then 1 or 2 is given and nothing looked at."""
    if not words.degrees_allowed(ring.levels, ring.degrees):
        return 0
    return words.sizes(ring.degrees[:ring.levels])[-1]


def element(ring):
    """An answer or a factor buffer of S_N words."""
    return [0] * size_of_element(ring)


def longest_slot(ring):
    """A slot of k coefficients, 'k from 1 to 256', 'within 4,096 words'."""
    size = size_of_element(ring)
    count = min(256, (ANSWER_WORDS - 1) // size) if size else 0
    return [0] * (1 + count * size)


def work_store():
    """The work store of every operation."""
    return [0] * WORK_WORDS


# The operations: what each prints behind its name.

def shortest(ring, slot):
    """'the shortest slot that holds the answer': it has at least one coefficient."""
    return slot[:1 + max(slot[0] + 1, 1) * size_of_element(ring)]


def not_done(ring, answer, factor):
    """'`factor`, level and its words, or `refused` and the number'."""
    if answer[0] == "factor":
        size = words.sizes(ring.degrees[:answer[1]])[-1]
        return [*answer, *factor[:size]]
    return list(answer)


def gcd(ring, a, b):
    """The monic GCD."""
    answer, _, (_, _, _, g, factor, _) = polynomial_gcd(
        *ring, a, b, longest_slot(ring), element(ring), work_store())
    if answer == ("done",):
        return ["ok", *shortest(ring, g)]
    return not_done(ring, answer, factor)


def div(ring, a, b):
    """'quotient, `rem`, remainder'; a is lent as long as it was given, and stays."""
    answer, _, (_, remainder, _, quotient, _) = polynomial_division(
        *ring, a, b, longest_slot(ring), work_store())
    if answer == ("done",):
        return ["ok", *shortest(ring, quotient), "rem", *shortest(ring, remainder)]
    return list(answer)


def mul(ring, a, b):
    """The product."""
    answer, _, (_, _, _, product, _) = polynomial_product(
        *ring, a, b, longest_slot(ring), work_store())
    if answer == ("done",):
        return ["ok", *shortest(ring, product)]
    return list(answer)


def inv(ring, a):
    """The inverse of 'a read as an element'."""
    answer, _, (_, _, inverse, factor, _) = element_inverse(
        *ring, a, element(ring), element(ring), work_store())
    if answer == ("done",):
        return ["ok", *inverse]
    return not_done(ring, answer, factor)


# '`gcd`, `div` or `mul` with a and b in that order, or `inv` with a'.
OPERATIONS = {b"gcd": (gcd, [b"a", b"b"]), b"div": (div, [b"a", b"b"]),
              b"mul": (mul, [b"a", b"b"]), b"inv": (inv, [b"a"])}


# Lines.

class Calculator:
    """Takes lines one by one."""

    def __init__(self):
        self.lines = 0
        self.ring = None
        self.operands = {}

    def take(self, line):
        """What a line, given without its line end, prints: one line or nothing."""
        self.lines += 1
        try:
            printed = self.read(line)
        except Unreadable:
            printed = ["unreadable", self.lines]
        if not printed:
            return b""
        return "\t".join(map(str, printed)).encode("ascii") + b"\n"

    def read(self, line):
        """The fields that a readable line prints, none for one that sets something."""
        name, *rest = line.split(b"\t")
        if len(line) > LINE_BYTES or name not in OPERATIONS and name not in SETTINGS:
            raise Unreadable
        if name in SETTINGS:
            SETTINGS[name](self, rest)
            return []
        return [name.decode("ascii"), *self.operate(*OPERATIONS[name], rest)]

    def set_field(self, fields):
        """'`field` p starts afresh'."""
        if len(fields) != 1:
            raise Unreadable
        self.ring = Ring(*numbers(fields), 0, (0, 0, 0, 0), [])
        self.operands = {}

    def set_extension(self, fields):
        """'the words of the next level's polynomial'; 'a fifth `ext` is unreadable'."""
        if self.ring is None or self.ring.levels == 4:
            raise Unreadable
        carried = words_carried(fields)
        modulus, levels, degrees, tower = self.ring
        degrees = degrees[:levels] + (carried[0],) + degrees[levels + 1:]
        self.ring = Ring(modulus, levels + 1, degrees, carried + tower)
        self.operands = {}

    def set_operand(self, fields):
        """'`poly`, a or b, and words'."""
        if self.ring is None or fields[:1] not in ([b"a"], [b"b"]):
            raise Unreadable
        self.operands[fields[0]] = words_carried(fields[1:])

    def operate(self, operation, needed, fields):
        """What the operation prints behind its name; `missing` for what it lacks."""
        if fields != needed:
            raise Unreadable
        if self.ring is None or any(name not in self.operands for name in needed):
            return ["missing"]
        return operation(self.ring, *(self.operands[name] for name in needed))


SETTINGS = {b"field": Calculator.set_field, b"ext": Calculator.set_extension,
            b"poly": Calculator.set_operand}


def lines_of(data):
    """The lines without their line ends; 'a last line needs no line end'."""
    lines = data.split(b"\n")
    return lines[:-1] if lines[-1] == b"" else lines


def answer_all(data):
    """The whole output for a whole input."""
    calculator = Calculator()
    return b"".join(calculator.take(line) for line in lines_of(data))


if __name__ == "__main__":
    sys.stdout.buffer.write(answer_all(sys.stdin.buffer.read()))
