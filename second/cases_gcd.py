"""Cases of the GCD: p, N, the degrees, tower words, words of a, of b, of the answer
slot g and of the factor buffer, work words."""

import functools
import itertools
import random

from second import cases, cases_sequences, ring, samples, splits, words
from second.cases_both import (
    HIGH_TOWERS, constant, leavings, replaced, slot_of, wrong_degrees, wrong_modulus,
    wrong_tower)
from second.cases_sequences import element_leavings, on_tower
from second.cases_slot import degree_places, random_slot
from second.cases_sum import RINGS
from second.cases_tower import power_words
from second.figures import T7
from second.ring import Tower
from second.sequence_calls import room_for_gcd

# The place of each list in a case.
A, B, G, FACTOR, WORK = range(4, 9)


def case(rng, p, degrees, a, b, room, more=0, tower=None):
    """An answer slot of so many coefficients, the GCD's work words and some more."""
    tower = power_words(degrees) if tower is None else tower
    work = cases.rubbish(rng, words.gcd_work(degrees, a[0], b[0]) + more)
    return on_tower(p, degrees, tower) + (
        a, b, leavings(rng, p, degrees, room), element_leavings(rng, p, degrees), work)


def of_values(rng, tower, f, g, spare=0, more=0):
    """f and g in slots, the answer slot with spare coefficients over its need."""
    degrees = ring.degrees(tower)
    room = room_for_gcd(ring.degree(f), ring.degree(g)) + spare
    return case(rng, tower.modulus, degrees, slot_of(rng, degrees, f),
                slot_of(rng, degrees, g), room, more, words.tower_to_words(tower))


def either_way(rng, tower, f, g):
    """The GCD of f and g, and of g and f."""
    yield of_values(rng, tower, f, g, rng.randrange(2), rng.randrange(2))
    yield of_values(rng, tower, g, f, rng.randrange(2), rng.randrange(2))


def right(rng, p, degrees, tower=None):
    """Random polynomials of degrees 1 and 2 in slots of 2 and 4 coefficients."""
    return case(rng, p, degrees, random_slot(rng, p, degrees, 1, 2),
                random_slot(rng, p, degrees, 2, 4), 3, rng.randrange(3), tower)


def monic_multiples(rng, tower, common, degree_a, degree_b):
    """Two random monic polynomials times a common one."""
    level = ring.top_level(tower)
    return [ring.poly_multiply(tower, level, common,
                               samples.random_monic(rng, tower, level, degree))
            for degree in (degree_a, degree_b)]


# What is given.

def gcd_figures():
    """C8, C9 and C10 of document 01, the calculator's `gcd`, and the order of a and b."""
    rng = random.Random(901)
    t7 = [(((1,), (3, 1)), ((), (1,))), ((), ()), (((6, 1), (6, 1)), ()),
          (((3, 1),), ()), (((5,), (), (1,)), ((0, 6), (1,))),
          (((), (3, 1)), ((), (), (4, 1)))]
    for spare, more in itertools.product((0, 1, 3), (0, 2)):
        for f, g in t7:
            for pair in [(f, g), (g, f)]:
                yield of_values(rng, T7, *pair, spare, more)
        yield of_values(rng, Tower(7, ()), (6, 0, 1), (1, 2, 1), spare, more)
        yield of_values(rng, Tower(7, ()), (1, 1), (6, 0, 1), spare, more)


def gcd_tiny():
    """Every pair of polynomials of few coefficients modulo 2, 3, 4 and 6."""
    rng = random.Random(902)
    for p, highest in [(2, 2), (3, 1), (4, 1)]:
        tower = Tower(p, ())
        values = samples.all_polynomials(tower, 0, highest)
        for f, g in itertools.product(values, repeat=2):
            yield of_values(rng, tower, f, g, more=rng.randrange(2))
    values = samples.all_polynomials(Tower(6, ()), 0, 1)
    for f, _ in itertools.product(values, range(3)):
        yield of_values(rng, Tower(6, ()), f, rng.choice(values))


def gcd_elements():
    """Every two elements of every R_1 with p = 2 and d_1 = 2, as polynomials."""
    rng = random.Random(903)
    for m in samples.all_monic(Tower(2, ()), 0, 2):
        tower = Tower(2, (m,))
        for f, g in itertools.product(samples.all_polynomials(tower, 1, 0), repeat=2):
            yield of_values(rng, tower, f, g)


def gcd_with_zero():
    """C10: both zero, and zero beside units, other elements and polynomials."""
    rng = random.Random(904)
    for p, degrees in RINGS:
        tower = samples.power_tower(p, degrees)
        yield of_values(rng, tower, (), (), rng.randrange(3), rng.randrange(3))
        for degree in (0, 2):
            f = cases.polynomial_of_degree(rng, tower, degree)
            yield from either_way(rng, tower, f, ())


def gcd_fields():
    """Fields of N = 0 to 4: a common factor, every order of the degrees."""
    rng = random.Random(905)
    for p, levels in itertools.product((3, 2147483647), range(5)):
        tower = samples.field_tower(p, levels)
        for degree, degree_a, degree_b in [(0, 1, 2), (1, 1, 1), (1, 0, 1), (2, 1, 0)]:
            common = samples.random_monic(rng, tower, levels, degree)
            f, g = monic_multiples(rng, tower, common, degree_a, degree_b)
            unit = cases.element_not_zero(rng, tower)
            yield of_values(rng, tower, ring.poly_scale(tower, levels, unit, f), g)
            yield of_values(rng, tower, f, ring.poly_scale(tower, levels, unit, g), 1, 1)


def gcd_towers():
    """Fields and other rings by name: multiples of a common factor, then any two."""
    rng = random.Random(906)
    for tower in samples.FIELDS + samples.NOT_FIELDS + samples.LARGER_NOT_FIELDS:
        level = ring.top_level(tower)
        for degree in (0, 1, 2):
            common = samples.random_monic(rng, tower, level, degree)
            f, g = monic_multiples(rng, tower, common, rng.randrange(3), rng.randrange(3))
            yield of_values(rng, tower, f, g, rng.randrange(3), rng.randrange(3))
        f, g = (samples.random_polynomial(rng, tower, level, 3) for _ in range(2))
        yield from either_way(rng, tower, f, g)


def gcd_shown():
    """Factors at every level 0 to N, at the leading coefficient of a, of b, of both."""
    rng = random.Random(907)
    for p, degrees in splits.RINGS:
        split = splits.split_tower(rng, p, degrees)
        tower, level = split.tower, len(degrees)
        other = samples.random_monic(rng, tower, level, 1)
        last = ring.one(level)
        for c in splits.all_showing(rng, split):
            low = [samples.random_element(rng, tower, level) for _ in range(2)]
            yield of_values(rng, tower, (*low, c), other)
            yield of_values(rng, tower, other, (low[0], c), 1, 1)
            yield of_values(rng, tower, (low[1], c), (*low, last))
            last = c


def gcd_shown_later():
    """Factors at every level 0 to N, at the first remainder and at the second."""
    rng = random.Random(908)
    for p, degrees in splits.RINGS:
        split = splits.split_tower(rng, p, degrees)
        tower, level = split.tower, len(degrees)
        for c in splits.all_showing(rng, split):
            first, second = (samples.random_monic(rng, tower, level, d) for d in (2, 1))
            low = samples.random_element(rng, tower, level)
            product = ring.poly_multiply(tower, level, first, second)
            f = ring.poly_add(tower, level, product, (low, c))
            yield of_values(rng, tower, f, first)
            yield of_values(rng, tower, first, f)
            g = ring.poly_multiply(tower, level, second, second)
            yield of_values(rng, tower, ring.poly_add(tower, level, g, (c,)), second)


def gcd_split():
    """Second program, seed 909: towers that fall apart, coefficients by remainders."""
    rng = random.Random(909)
    for p, degrees in splits.RINGS:
        split = splits.split_tower(rng, p, degrees)
        tower, level = split.tower, len(degrees)
        for c in splits.all_joined(rng, split, level):
            yield of_values(rng, tower, (c, ring.one(level)), (c, c, ring.one(level)))
            yield of_values(rng, tower, (ring.one(level), c), (c,), 1)


def gcd_nilpotent():
    """Towers of powers: monic polynomials whose remainder only has powers of z_i."""
    rng = random.Random(910)
    for p, degrees in [(4, ()), (9, ())] + cases_sequences.POWERS:
        tower = samples.power_tower(p, degrees)
        top = len(degrees)
        powers = [constant(top, level, ring.poly_shift(
            level - 1, (ring.one(level - 1),), rng.randint(1, d - 1)))
            for level, d in enumerate(degrees, 1)] or [splits.divisor(rng, p)]
        for z in powers:
            f = samples.random_monic(rng, tower, top, 2)
            yield from either_way(rng, tower, f, ring.poly_add(tower, top, f, (z,)))
            yield from either_way(rng, tower, (z, ring.one(top)), (ring.one(top), z))


def gcd_near_p():
    """Residues at both ends of their range: every two, p at its own ends."""
    rng = random.Random(911)
    for p in (2, 3, 2147483646, 2147483647):
        ends = sorted({1, p // 2, p // 2 + 1, p - 2, p - 1} - {0, p})
        for first, second in itertools.product(ends, repeat=2):
            yield of_values(rng, Tower(p, ()), (first, second), (second, first, first))


def gcd_of_largest():
    """Every residue p - 1, with 0 to 2 levels; x^m - 1 and x^n - 1."""
    rng = random.Random(912)
    for p in (2, 2147483646, 2147483647):
        for degree_a, degree_b in [(2, 1), (7, 8), (40, 40), (100, 64)]:
            yield of_values(rng, Tower(p, ()), (p - 1,) * (degree_a + 1),
                            (p - 1,) * (degree_b + 1))
        for m, n in [(6, 4), (12, 18), (240, 160)]:
            f, g = ((p - 1, *(0,) * (d - 1), 1) for d in (m, n))
            yield of_values(rng, Tower(p, ()), f, g)
        for tower, element, one in samples.largest_residues(p):
            yield of_values(rng, tower, (element,) * 3, (element, one))


def gcd_longest():
    """All quotients of degree 1: D remainders, and D + 1 with the lower one first."""
    rng = random.Random(913)
    for tower, highest in [(Tower(2, ()), 12), (Tower(6, ()), 9), (T7, 5)]:
        level = ring.top_level(tower)
        low, high = (ring.one(level),), (ring.zero(level), ring.one(level))
        for _ in range(highest):
            yield from either_way(rng, tower, low, high)
            step = ring.poly_add(tower, level, ring.poly_shift(level, high, 1), low)
            low, high = high, step


def gcd_high_towers():
    """Second program, seed 914: four levels, and polynomials of a high degree below x."""
    rng = random.Random(914)
    for p, degrees in HIGH_TOWERS:
        tower = samples.random_tower(rng, p, degrees)
        common = samples.random_monic(rng, tower, len(degrees), 1)
        f, g = monic_multiples(rng, tower, common, 0, 1)
        yield of_values(rng, tower, f, g)
        h = cases.polynomial_of_degree(rng, tower, 1)
        yield from either_way(rng, tower, f, h)


def gcd_largest():
    """'k from 1 to 256' and 'at most 65,536 words': at the limits and above."""
    rng = random.Random(915)
    for degree_a, degree_b, room in [(255, 254, 256), (255, 255, 255), (255, 0, 256),
                                     (0, 255, 255), (-1, 255, 256), (30, 200, 256)]:
        yield case(rng, 7, (), random_slot(rng, 7, (), degree_a, 256),
                   random_slot(rng, 7, (), degree_b, 256), room)
    a, b = (random_slot(rng, 7, (), degree, 2) for degree in (1, 0))
    small = case(rng, 7, (), a, b, 2)
    for count in (256, 257):
        yield replaced(small, G, [0] * (1 + count))
    degrees = (63, 4)  # S_2 = 257, and 255 * 257 + 1 = 65,536.
    a, b = (random_slot(rng, 2, degrees, 0, 1) for _ in range(2))
    for count in (255, 256):
        yield replaced(case(rng, 2, degrees, a, b, 1), G, [1] * (1 + count * 257))


def gcd_random():
    """Second program, seed 916: random towers, about half of their m_i products."""
    rng = random.Random(916)
    for _ in range(250):
        p = rng.choice(samples.MODULI + [rng.randrange(2, 2 ** 31)])
        tower = samples.random_tower(rng, p, cases.random_degrees(rng, 20))
        level = ring.top_level(tower)
        common = samples.random_monic(rng, tower, level, rng.randint(0, 2))
        f, g = monic_multiples(rng, tower, common, rng.randint(0, 2), rng.randint(0, 2))
        if rng.random() < 0.5:
            f = ring.poly_scale(tower, level, cases.element_not_zero(rng, tower), f)
        yield of_values(rng, tower, f, g, rng.randrange(3), rng.randrange(4))


# What is refused.

def gcd_room():
    """6: every two degrees, g of one coefficient less, as many as needed, and more."""
    rng = random.Random(917)
    for p, degrees in [(4, ()), (6, (2,)), (2147483647, (2,))]:
        for degree_a, degree_b in itertools.product((-1, 0, 1, 2), repeat=2):
            needed = room_for_gcd(degree_a, degree_b)
            a = random_slot(rng, p, degrees, degree_a, 3)
            b = random_slot(rng, p, degrees, degree_b, degree_b + 2)
            for room in range(max(needed - 1, 1), needed + 2):
                yield case(rng, p, degrees, a, b, room, rng.randrange(2))


def gcd_leavings():
    """'leaving old words behind it': a degree word of -1 before them, by level."""
    rng = random.Random(918)
    for degrees in [(), (2,), (3, 2), (2, 2, 2)]:
        whole = right(rng, 7, degrees)
        for place, at in itertools.product((A, B), degree_places(degrees, 2)):
            slot = whole[place]
            yield replaced(whole, place, slot[:at] + [-1] + slot[at + 1:])


def gcd_work_by_degrees():
    """7: the work words of every two degrees, one less, and of degrees one higher."""
    rng = random.Random(919)
    for degrees in [(), (2,), (2, 2)]:
        for degree_a, degree_b in itertools.product((-1, 0, 2), repeat=2):
            a = random_slot(rng, 6, degrees, degree_a, 3)
            b = random_slot(rng, 6, degrees, degree_b, 4)
            whole = case(rng, 6, degrees, a, b, 3)
            yield whole
            yield replaced(whole, WORK, whole[WORK][:-1])
            more = words.sizes(degrees)[-1]
            yield replaced(whole, WORK, whole[WORK] + cases.rubbish(rng, more))


def no_room(rng, arguments):
    """6: an answer slot of one coefficient, of four words."""
    return replaced(arguments, G, arguments[G][:4])


FAULTS = [wrong_modulus, wrong_degrees, wrong_tower,
          cases_sequences.wrong_length_at([A, B, G, FACTOR]),
          cases_sequences.wrong_form_at([A, B]), no_room, cases_sequences.short_work]


def needed_work(degrees, arguments):
    """The GCD's number, for the degrees of this case."""
    return words.gcd_work(degrees, arguments[A][0], arguments[B][0])


def shared(group, *arguments):
    """A group of cases_sequences, of this call."""
    return functools.partial(group, right, *arguments)


GCD = [
    gcd_figures, gcd_tiny, gcd_elements, gcd_with_zero, gcd_fields, gcd_towers,
    gcd_shown, gcd_shown_later, gcd_split, gcd_nilpotent, gcd_near_p, gcd_of_largest,
    gcd_longest, gcd_high_towers, gcd_largest, gcd_random, gcd_room, gcd_leavings,
    gcd_work_by_degrees,
    shared(cases_sequences.edge_moduli, 921),
    shared(cases_sequences.edge_levels, 922),
    shared(cases_sequences.edge_degrees, 923),
    shared(cases_sequences.damaged_towers, 924),
    shared(cases_sequences.lengths, [A, B, G, FACTOR], 925),
    shared(cases_sequences.damaged_inputs, [A, B], 926),
    shared(cases_sequences.work_lengths, needed_work, RINGS, 927),
    shared(cases_sequences.any_contents, [G, FACTOR, WORK], 928),
    shared(cases_sequences.orders, FAULTS, 929)]
