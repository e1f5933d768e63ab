"""Cases of the check of a slot: p, N, the degrees, tower words, slot words."""

import itertools
import random

from second import cases, samples, words
from second.cases import four
from second.cases_tower import (
    EXAMPLE_DEGREES, EXAMPLE_MODULUS, EXAMPLE_TOWER, power_words)

# 001, Example 2: C holds f = 12x^2 + (..)x + (..).
EXAMPLE_SLOT = [2, 1, 1, 3, 4, 0, 1, 5, 6, 0, 1, 2, 7, 8, 9, 2, 0, 10, 11,
                0, 0, 12, 0, 0, -1, 0, 0, 0]

# A right slot over d = (2, 2): 2 coefficients, the second of them z_2 + z_1.
SLOT_2_2 = [1, -1, -1, 0, 0, -1, 0, 0, 1, 1, 0, 1, 0, 1, 0]


def case(p, degrees, slot, tower=None):
    """A case over the tower of powers, where no other is given."""
    tower = power_words(degrees) if tower is None else tower
    return p, len(degrees), four(degrees), tower, slot


def zero_slot(degrees, count):
    """The zero polynomial in a slot of so many coefficients."""
    return words.slot_to_words(degrees, (), count)


def random_slot(rng, p, degrees, degree, count):
    """A random polynomial of this degree in a slot of so many coefficients."""
    tower = samples.power_tower(p, degrees)
    f = cases.polynomial_of_degree(rng, tower, degree)
    return words.slot_to_words(degrees, f, count)


def slot_example():
    """001, Example 2, with each word damaged, and cut and drawn out."""
    for slot in cases.damaged(EXAMPLE_SLOT, EXAMPLE_MODULUS):
        yield case(EXAMPLE_MODULUS, EXAMPLE_DEGREES, slot, EXAMPLE_TOWER)


def slot_example_tower():
    """001, Example 2: the slot as it is, each word of the tower damaged."""
    for tower in cases.each_word_replaced(EXAMPLE_TOWER, EXAMPLE_MODULUS):
        yield case(EXAMPLE_MODULUS, EXAMPLE_DEGREES, EXAMPLE_SLOT, tower)


def slot_moduli():
    """C1 of document 01: each edge of p, with 0 to 4 levels."""
    for p, degrees in itertools.product(cases.MODULI, cases.SMALL_DEGREES):
        yield case(p, degrees, zero_slot(degrees, 2))


def slot_levels():
    """'N .. out of range': each edge of N with right words of 0 to 4 levels."""
    for levels, degrees in itertools.product(cases.LEVELS, cases.SMALL_DEGREES):
        yield 7, levels, four(degrees), power_words(degrees), zero_slot(degrees, 1)


def slot_degrees():
    """'the degrees out of range': each place at each edge."""
    for levels in range(5):
        right = (2,) * levels
        for degrees in cases.degrees_put_wrong(levels):
            yield 7, levels, degrees, power_words(right), zero_slot(right, 1)


def slot_size_limit():
    """C2 of document 01, and S_N = 2,048 and 2,049, each with right words."""
    for degrees in [(64, 31), (64, 32), (43, 2, 23), (31, 64)]:
        for count in (1, 2):
            yield case(3, degrees, zero_slot(degrees, count))


def slot_counts():
    """'k from 1 to 256': slots of chosen counts, at the ends of their degrees."""
    rng = random.Random(301)
    for p, degrees in [(2, ()), (2147483647, ()), (3, (2,)), (2, (3, 2))]:
        for count in (1, 2, 32, 33, 255, 256, 257, 258):
            for degree in sorted({-1, 0, count // 2, count - 1}):
                slot = random_slot(rng, p, degrees, degree, count)
                yield case(p, degrees, slot)


def slot_lengths():
    """'1 + k * S_N words': every length from 0 to three coefficients and more."""
    for degrees in [(), (2,), (2, 2), (3, 2), (2, 2, 2)]:
        size = words.sizes(degrees)[-1]
        longest = zero_slot(degrees, 4)
        for length in range(3 * size + 3):
            yield case(3, degrees, longest[:length])


def slot_largest():
    """C3 of document 01; 65,536 and 65,537 words; the largest of one level."""
    rng = random.Random(302)
    for p, degrees, degree, count in [
            (2, (64, 31), -1, 33), (2, (3, 64), 254, 255), (2, (3, 22, 23), -1, 32),
            (2147483647, (64,), 255, 256)]:
        yield case(p, degrees, random_slot(rng, p, degrees, degree, count))
    right = random_slot(rng, 2, (64, 31), 31, 32)
    yield case(2, (64, 31), right)
    yield case(2, (64, 31), right[:-1] + [2])


def slot_largest_damaged():
    """The largest slot of one level: its ends wrong, and cut and drawn out."""
    rng = random.Random(303)
    right = random_slot(rng, 2, (64,), 255, 256)
    yield case(2, (64,), right)
    for place, word in [(0, 256), (0, 254), (-1, 2), (-1, -1)]:
        slot = list(right)
        slot[place] = word
        yield case(2, (64,), slot)
    yield case(2, (64,), right[:-1])
    yield case(2, (64,), right + [0])


def slot_every_word():
    """Second program, seed 304: each word of small slots damaged in turn."""
    rng = random.Random(304)
    for p, degrees, degree, count in [
            (2, (), 1, 3), (7, (), 2, 3), (2, (2,), 1, 2), (2147483647, (2,), 1, 2),
            (5, (3,), -1, 2), (3, (2, 2), 1, 2), (4, (2, 2), 0, 2),
            (2, (2, 2, 2), 0, 1), (6, (2, 2, 2, 2), 0, 1)]:
        right = random_slot(rng, p, degrees, degree, count)
        yield case(p, degrees, right)
        for slot in cases.each_word_replaced(right, p):
            yield case(p, degrees, slot)


def slot_degree_word():
    """'a degree word from -1 to k-1': every degree word for every true degree."""
    rng = random.Random(305)
    for degrees, count in [((), 4), ((2,), 3), ((2, 2), 2)]:
        for degree in range(-1, count):
            right = random_slot(rng, 5, degrees, degree, count)
            for word in [-3, -2] + list(range(-1, count + 2)):
                yield case(5, degrees, [word] + right[1:])


def slot_leavings():
    """'Setting a degree word to -1 and leaving old words behind it', by level."""
    rng = random.Random(306)
    for degrees in [(2,), (3,), (2, 2), (3, 2), (2, 2, 2)]:
        for _ in range(10):
            slot = random_slot(rng, 7, degrees, 1, 2)
            for place in degree_places(degrees, 2):
                yield case(7, degrees, slot[:place] + [-1] + slot[place + 1:])


def degree_places(degrees, count):
    """Where the degree words of a slot stand, its own first."""
    if not degrees:
        return [0]
    size = words.sizes(degrees)[-1]
    inner = degree_places(degrees[:-1], degrees[-1])
    return [0] + [1 + k * size + place for k in range(count) for place in inner]


def slot_order():
    """1 before 2 before .. before 5, each with the faults of later numbers."""
    towers = [power_words((2, 2)), power_words((2, 2))[:-1], [0] * 14]
    slots = [SLOT_2_2, SLOT_2_2[:-1], [7] * 15, [7] * 16, []]
    for tower, slot in itertools.product(towers, slots):
        for levels, degrees in [(2, four((2, 2))), (2, four((2, 1))), (5, four(()))]:
            for p in (-1, 1, 2, 2147483648):
                yield p, levels, degrees, tower, slot


def slot_random():
    """Second program, seed 307: random right slots, then one word changed."""
    rng = random.Random(307)
    for _ in range(250):
        p = rng.choice(samples.MODULI + [rng.randrange(2, 2 ** 31)])
        degrees = cases.random_degrees(rng, 40)
        tower = words.tower_to_words(cases.large_tower(rng, p, degrees))
        count = rng.randint(1, 6)
        slot = random_slot(rng, p, degrees, rng.randint(-1, count - 1), count)
        yield case(p, degrees, slot, tower)
        yield case(p, degrees, cases.one_word_replaced(rng, slot, p), tower)


SLOT = [slot_example, slot_example_tower, slot_moduli, slot_levels, slot_degrees,
        slot_size_limit, slot_counts, slot_lengths, slot_largest,
        slot_largest_damaged, slot_every_word, slot_degree_word, slot_leavings,
        slot_order, slot_random]
