"""Cases of the check of a tower: p, N, the degrees, the tower's words."""

import itertools
import random

from second import cases, ring, samples, words
from second.cases import four

# 001, Example 2: p = 17, d = (3, 2); E holds m_2 and then m_1.
EXAMPLE_MODULUS, EXAMPLE_DEGREES = 17, (3, 2)
EXAMPLE_TOWER = [2, 2, 6, 3, 7, 1, 4, 5, 0, 0, 1, 0, 0, 3, 3, 0, 0, 1]


def case(p, degrees, tower):
    """A case whose N is the number of the degrees."""
    return p, len(degrees), four(degrees), tower


def power_words(degrees):
    """The words of a tower that suit every modulus: m_i is a power of z_i."""
    return words.tower_to_words(samples.power_tower(2, degrees))


def tower_example():
    """001, Example 2, with each word damaged, and cut and drawn out."""
    for tower in cases.damaged(EXAMPLE_TOWER, EXAMPLE_MODULUS):
        yield case(EXAMPLE_MODULUS, EXAMPLE_DEGREES, tower)


def tower_moduli():
    """C1 of document 01: each edge of p, with 0 to 4 levels."""
    for p, degrees in itertools.product(cases.MODULI, cases.SMALL_DEGREES):
        yield case(p, degrees, power_words(degrees))


def tower_levels():
    """'N .. out of range': each edge of N with a right tower of 0 to 4 levels."""
    for levels, degrees in itertools.product(cases.LEVELS, cases.SMALL_DEGREES):
        yield 7, levels, four(degrees), power_words(degrees)


def tower_degrees():
    """'the degrees out of range': each place at each edge."""
    for levels in range(5):
        for degrees in cases.degrees_put_wrong(levels):
            yield 7, levels, degrees, power_words((2,) * levels)


def tower_size_limit():
    """C2 of document 01, and S_N = 2,048 and 2,049, each with right words."""
    for degrees in [(64, 31), (64, 32), (64,), (65,), (2, 64), (2, 65), (1, 2),
                    (3, 22, 23), (6, 3, 4, 23), (31, 64), (9, 5, 5, 8)]:
        yield case(3, degrees, power_words(degrees))
    rng = random.Random(201)
    for p, degrees in [(2, (64, 31)), (2147483647, (64, 31)), (5, (43, 2, 23))]:
        right = words.tower_to_words(cases.large_tower(rng, p, degrees))
        yield case(p, degrees, right)
        for _ in range(4):
            yield case(p, degrees, cases.one_word_replaced(rng, right, p))


def tower_lengths():
    """'wrong length': short, long and empty; for N = 0 any word at all."""
    for degrees in cases.SMALL_DEGREES + [(64, 31)]:
        for tower in cases.other_lengths(power_words(degrees)):
            yield case(5, degrees, tower)
    for word in (-1, 0, 1, 5):
        yield case(5, (), [word])


def tower_every_word():
    """Second program, seed 202: each word of small towers damaged in turn."""
    rng = random.Random(202)
    for p, degrees in [(2, (2,)), (3, (3,)), (2147483647, (2,)), (4, (2, 2)),
                       (7, (3, 2)), (2, (2, 2, 2)), (6, (2, 2, 2, 2))]:
        right = words.tower_to_words(samples.random_tower(rng, p, degrees))
        yield case(p, degrees, right)
        for tower in cases.each_word_replaced(right, p):
            yield case(p, degrees, tower)


def tower_not_monic():
    """'the last of them 1': other last elements in form, at each level."""
    rng = random.Random(203)
    p, degrees = 5, (3, 2, 2)
    tower = samples.random_tower(rng, p, degrees)
    for level in (1, 2, 3):
        others = [samples.random_element(rng, tower, level - 1) for _ in range(20)]
        for last in constants(level - 1, p) + others:
            yield case(p, degrees, words_with_last(tower, level, last))


def constants(level, p):
    """The numbers 0 to p-1 as elements of a level."""
    if level == 0:
        return list(range(p))
    return [(), *((c,) for c in constants(level - 1, p)[1:])]


def words_with_last(tower, level, last):
    """The words of a tower with another last element in m_level."""
    degrees = ring.degrees(tower)
    parts = words.tower_parts(degrees, words.tower_to_words(tower))
    element = words.element_to_words(degrees, level - 1, last)
    parts[level - 1] = parts[level - 1][:-len(element)] + element
    return sum(reversed(parts), [])


def tower_other_order():
    """'m_N first and m_1 last': the levels the other way round, and twice one."""
    rng = random.Random(204)
    for p, degrees in [(3, (2, 2)), (7, (3, 2)), (2, (2, 3, 2)), (5, (2, 2, 2, 2))]:
        tower = samples.random_tower(rng, p, degrees)
        parts = words.tower_parts(degrees, words.tower_to_words(tower))
        yield case(p, degrees, sum(parts, []))
        yield case(p, degrees, parts[0] * len(parts))
        yield case(p, tuple(reversed(degrees)), sum(reversed(parts), []))


def tower_order():
    """1 before 2 before 3, each with the faults of the later numbers."""
    right, wrong = power_words((2, 2)), [0] * 14
    for tower in (right, wrong, []):
        for levels, degrees in [(2, four((2, 2))), (2, four((2, 1))), (5, four(())),
                                (1, four((2, 2))), (2, (64, 32, 0, 0))]:
            for p in (0, 1, 2, 2147483648):
                yield p, levels, degrees, tower


def tower_random():
    """Second program, seed 205: random right towers, then one word changed."""
    rng = random.Random(205)
    for turn in range(300):
        p = rng.choice(samples.MODULI + [rng.randrange(2, 2 ** 31)])
        degrees = cases.random_degrees(rng, 60)
        right = words.tower_to_words(cases.large_tower(rng, p, degrees))
        yield case(p, degrees, right)
        if right:
            yield case(p, degrees, cases.one_word_replaced(rng, right, p))


TOWER = [tower_example, tower_moduli, tower_levels, tower_degrees,
         tower_size_limit, tower_lengths, tower_every_word, tower_not_monic,
         tower_other_order, tower_order, tower_random]
