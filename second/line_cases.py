"""Operations to ask of the calculator: the kernel's cases, and those of its own limits.

A case is p, the words of each `ext` line, m_1's first, the words of a and perhaps of b
by their names, and the lines that ask.
"""

import itertools
import random
from collections import namedtuple

from second import cases, ring, samples, words
from second.calculator import LINE_WORDS
from second.cases_both import monic_slot, one_in_slot, replaced
from second.cases_division import DIVISION
from second.cases_gcd import GCD
from second.cases_inverse import INVERSE
from second.cases_product import PRODUCT
from second.cases_slot import random_slot, zero_slot
from second.cases_tower import power_words
from second.line_rules import OPERATIONS, line
from second.ring import Tower

Case = namedtuple("Case", "modulus extensions operands asked")

GCD_LINE, DIV_LINE, MUL_LINE, INV_LINE = OPERATIONS

# The ends of 'an optional minus and 1 to 10 digits'.
LEAST, MOST = -9999999999, 9999999999


def pair(p, extensions, a, b):
    """The GCD, the division and the product of two slots."""
    return Case(p, extensions, {"a": a, "b": b}, [GCD_LINE, DIV_LINE, MUL_LINE])


def element(p, extensions, c):
    """The inverse of an element."""
    return Case(p, extensions, {"a": c}, [INV_LINE])


def can_be_carried(numbers):
    """Whether an `ext` or `poly` line can carry these words."""
    return 1 <= len(numbers) <= LINE_WORDS and all(LEAST <= w <= MOST for w in numbers)


def lines_asking(given):
    """The lines of cases, each once; what is set already is not set again."""
    seen, held, operands = set(), None, {}
    for case in given:
        lists = [*case.extensions, *case.operands.values()]
        if str(case) in seen or not all(map(can_be_carried, lists)):
            continue
        seen.add(str(case))
        if held != case[:2]:
            held, operands = case[:2], {}
            yield line("field", case.modulus)
            yield from (line("ext", *extension) for extension in case.extensions)
        for name, slot in case.operands.items():
            if operands.get(name) != slot:
                operands[name] = slot
                yield line("poly", name, *slot)
        yield from case.asked


# The words of the `ext` lines, m_1's first.

def extensions_of(degrees, tower):
    """Each line with the words of its own polynomial."""
    return tuple(words.tower_parts(degrees, tower))


def power_extensions(degrees):
    """Those of a tower that suits every modulus: m_i is a power of z_i."""
    return extensions_of(degrees, power_words(degrees))


# The kernel's cases.

def can_be_said(p, levels, degrees, tower):
    """Whether `field` and `ext` lines say the same: each begins with its degree."""
    if not (LEAST <= p <= MOST and words.degrees_allowed(levels, degrees)):
        return False
    parts = extensions_of(degrees[:levels], tower)
    return (sum(map(len, parts)) == len(tower)
            and all(part[:1] == [d] for part, d in zip(parts, degrees)))


def of_calls():
    """Every case of GCD, product, division and inverse that lines can say."""
    for groups, made, count in [(GCD + PRODUCT + DIVISION, pair, 2),
                                (INVERSE, element, 1)]:
        for arguments in (case for group in groups for case in group()):
            if can_be_said(*arguments[:4]):
                p, levels, degrees, tower, *lists = arguments
                yield made(p, extensions_of(degrees[:levels], tower), *lists[:count])


# 1 to 3.

def all_four(p, degrees, extensions):
    """Each operation on the polynomials and the element 1 over d_1, .., d_N."""
    one = one_in_slot(degrees, 1)
    return [pair(p, extensions, one, one), element(p, extensions, one[1:])]


def moduli():
    """1, and p at the ends of its range and of a number."""
    for p, degrees in itertools.product([LEAST, -7, *cases.MODULI[1:-1], MOST],
                                        cases.SMALL_DEGREES):
        yield from all_four(p, degrees, power_extensions(degrees))


def first_words():
    """2: 'The first word of `ext` is taken as that level's degree', at each edge."""
    edges = [LEAST, -1, 0, 1, 3, 64, 65, MOST]
    for p, levels in itertools.product((7, 1), range(1, 5)):
        right = power_extensions((2,) * levels)
        for place, word in itertools.product(range(levels), edges):
            wrong = replaced(right, place, [word] + right[place][1:])
            yield from all_four(p, (2,) * levels, wrong)


def one_word_extensions():
    """C2, and S_N at 2,048 and 2,049: 2 out of range, else 3, as words are missing."""
    for degrees in [(64, 31), (64, 32), (31, 64), (43, 2, 23), (3, 22, 23), (64,) * 4,
                    (9, 5, 5, 8), (64, 2, 2, 7), (64, 2, 2, 8), (2,), (2,) * 4]:
        yield from all_four(7, (2,), tuple([d] for d in degrees))


def damaged_extensions():
    """2 and 3: each word of each level damaged, exchanged, cut and drawn out."""
    rng = random.Random(1001)
    for p, degrees in [(6, (2,)), (2147483647, (3,)), (5, (3, 2)), (2, (2, 2, 2))]:
        tower = samples.random_tower(rng, p, degrees)
        right = extensions_of(degrees, words.tower_to_words(tower))
        for place, part in enumerate(right):
            for wrong in cases.damaged(part, p):
                yield from all_four(p, degrees, replaced(right, place, wrong))


# The tower's words are those of all `ext` lines, and may be parted elsewhere.

def full_element(rng, residues, degrees):
    """An element of R_N without a zero coefficient at any level."""
    if not degrees:
        return rng.choice(residues)
    return tuple(full_element(rng, residues, degrees[:-1]) for _ in range(degrees[-1]))


def full_tower(rng, p, degrees):
    """The words of a tower; every residue is one of its degrees, or a leading 1."""
    return words.tower_to_words(Tower(p, tuple(
        (*full_element(rng, degrees, degrees[:level + 1]), ring.one(level))
        for level in range(len(degrees)))))


def other_parts(rng, degrees, tower):
    """The words parted at random where d_(N-1), .., d_1 occur; m_1's line first."""
    own_lengths = map(len, words.tower_parts(degrees, tower)[:0:-1])
    parts, start = [], 0
    for left, own_start in zip(range(len(degrees) - 1, 0, -1),
                               itertools.accumulate(own_lengths)):
        window = range(max(start + 1, len(tower) - LINE_WORDS * left),
                       min(start + LINE_WORDS, own_start) + 1)
        end = rng.choice([at for at in window if tower[at] == degrees[left - 1]])
        parts.insert(0, tower[start:end])
        start = end
    return tower[start:], *parts


def parted_elsewhere():
    """Lines that do not end where their polynomials do: ok, and 3 with a fault."""
    rng = random.Random(1002)
    for p, degrees in [(3, (2, 2)), (7, (3, 2)), (5, (2, 3)), (6, (2, 2, 2)),
                       (2147483647, (4, 2)), (4, (2, 2, 2, 2))]:
        for _ in range(4):
            extensions = other_parts(rng, degrees, full_tower(rng, p, degrees))
            a = random_slot(rng, p, degrees, 2, 3)
            yield pair(p, extensions, a, monic_slot(rng, p, degrees, 1, 2))
            yield element(p, extensions, a[1:1 + words.sizes(degrees)[-1]])
            yield from all_four(p, degrees, (extensions[0] + [0], *extensions[1:]))
            yield from all_four(p, degrees, extensions[::-1])


def work_store():
    """7: GCDs of constants that need 8,180 words, and 8,204 and 9,056.

    Only `gcd` gives 7, and only where the lines of a tower are parted elsewhere: where
    each carries its own polynomial, in 512 words at most, no call needs more than
    5,932. 10 belongs to the fraction, and 11 is given by no sequence.
    """
    rng = random.Random(1003)
    for degrees in [(14, 8, 2, 2), (56, 2, 2, 2), (62, 2, 2, 2), (40, 2, 2, 2)]:
        tower = full_tower(rng, 97, degrees)
        one, zero = one_in_slot(degrees, 1), zero_slot(degrees, 1)
        for extensions in (other_parts(rng, degrees, tower),
                           extensions_of(degrees, tower)):
            for a, b in itertools.product((one, zero), repeat=2):
                yield pair(97, extensions, a, b)
            yield element(97, extensions, one[1:])


def elements_too_long():
    """4: S_2 = 846, more words than a line carries; the tower is right."""
    rng = random.Random(1004)
    extensions = other_parts(rng, (64, 13), full_tower(rng, 97, (64, 13)))
    for longest in ([-1] + [0] * 511, [0] * 512):
        yield pair(97, extensions, longest, longest)
        yield element(97, extensions, longest)


# 4 to 9.

def lengths():
    """4: words of every length up to three coefficients, as a, as b, as an element."""
    for degrees in [(), (2,), (2, 2), (3, 2)]:
        extensions, longest = power_extensions(degrees), zero_slot(degrees, 4)
        one = one_in_slot(degrees, 1)
        for length in range(1, 3 * words.sizes(degrees)[-1] + 3):
            yield pair(5, extensions, longest[:length], one)
            yield pair(5, extensions, one, longest[:length])
            yield element(5, extensions, one[1:2] + longest[2:1 + length])


def read_either_way():
    """The same words as a slot and as an element: no list is both."""
    for degrees in cases.SMALL_DEGREES:
        one = one_in_slot(degrees, 2)
        for slot in (one, one[1:1 + words.sizes(degrees)[-1]]):
            yield Case(5, power_extensions(degrees), {"a": slot, "b": slot}, OPERATIONS)


def operands_stay():
    """The same `div` twice, and each operation after each other."""
    rng = random.Random(1005)
    for p, degrees in [(7, ()), (6, (2,)), (2147483647, (2, 2))]:
        a, b = random_slot(rng, p, degrees, 3, 5), monic_slot(rng, p, degrees, 1, 2)
        for asked in itertools.product(OPERATIONS[:3], repeat=2):
            yield Case(p, power_extensions(degrees), {"a": a, "b": b}, asked)


def rooms():
    """6: products of 255, 256 and 257 coefficients; zero divisors of a high a."""
    rng = random.Random(1006)
    for p, degrees in itertools.product((2, 6, 2147483647), [(), (2,)]):
        for both in [(127, 127), (127, 128), (128, 127), (128, 128)]:
            a, b = (random_slot(rng, p, degrees, degree, degree + 1) for degree in both)
            yield pair(p, power_extensions(degrees), a, b)._replace(asked=[MUL_LINE])
    for degree in (253, 254, 255):
        for b in ([-1, 0], [0, 1], [0, 6], [1, 0, 1]):
            yield pair(7, (), random_slot(rng, 7, (), degree, degree + 1), b)


def orders():
    """1 before 2 before .. before 9: every choice of faults in p, tower, a and b."""
    towers = [[2, 3, 0, 1], [1, 3, 0, 1], [2, 3, 0], [2, 3, 0, 2], [2, 3, 7, 1]]
    slots = [[1, 1, 2, 1, 0, 1, 0], [1, 1, 2, 1, 0, 2, 0], [1, 1, 2, 1, 0, 9, 0],
             [-1, -1, 0, 0], [0, 0, 1, 0, 5], [0, -1, 0, 0]]
    elements = [[1, 2, 1], [-1, 0, 0], [0, 7, 0], [0, 0, 0], [0, 1], [0, 1, 0, 0]]
    for p, tower in itertools.product((7, 1), towers):
        for a, b in itertools.product(slots, repeat=2):
            yield pair(p, (tower,), a, b)
        for c in elements:
            yield element(p, (tower,), c)


# The largest.

def full_lines():
    """As many coefficients as a line carries, up to 512 words; 10 digits each."""
    rng = random.Random(1007)
    for p, degrees, count in [(2147483647, (), 256), (2147483646, (), 256),
                              (2, (), 256), (2147483647, (2,), 128), (97, (2, 24), 7),
                              (2147483647, (2, 2), 73), (2147483647, (64,), 7)]:
        tower = words.tower_to_words(cases.large_tower(rng, p, degrees))
        extensions = extensions_of(degrees, tower)
        a, b = (random_slot(rng, p, degrees, count - 1, count) for _ in range(2))
        yield pair(p, extensions, a, monic_slot(rng, p, degrees, count // 2, count))
        yield pair(p, extensions, a, b)
        yield element(p, extensions, a[1:1 + words.sizes(degrees)[-1]])


def high_degrees():
    """GCDs of a high degree over a field, and of two polynomials that share nothing."""
    rng = random.Random(1008)
    for tower, degree in [(Tower(2147483647, ()), 100), (Tower(2, ()), 100),
                          (samples.field_tower(2147483647, 1), 40),
                          (samples.field_tower(10007, 2), 12)]:
        degrees, level = ring.degrees(tower), ring.top_level(tower)
        extensions = extensions_of(degrees, words.tower_to_words(tower))
        common, *others = (samples.random_monic(rng, tower, level, d)
                           for d in (degree, degree // 2, degree // 3))
        f, g = (ring.poly_multiply(tower, level, common, other) for other in others)
        for both in [(f, g), (g, f), others]:
            a, b = (words.shortest_slot(degrees, h) for h in both)
            yield pair(tower.modulus, extensions, a, b)


CASES = [of_calls, moduli, first_words, one_word_extensions, damaged_extensions,
         parted_elsewhere, work_store, elements_too_long, lengths, read_either_way,
         operands_stay, rooms, orders, full_lines, high_degrees]
