"""Cases of the division: p, N, the degrees, tower words, words of a, b, q, work words."""

import functools
import itertools
import random

from second import cases, cases_both, ring, samples
from second.cases_both import (
    ANSWER, BOTH, EXAMPLE_DIVISOR, HIGH_TOWERS, WORK, case, constant, monic_slot,
    one_in_slot, replaced)
from second.cases_slot import EXAMPLE_SLOT, random_slot, zero_slot
from second.cases_sum import RINGS
from second.cases_tower import EXAMPLE_DEGREES, EXAMPLE_MODULUS, EXAMPLE_TOWER
from second.figures import T7
from second.products import room_for_quotient
from second.ring import Tower

# q has the room that the quotient needs, and spare coefficients.
of_values = functools.partial(cases_both.of_values, room_for_quotient)


def division_example():
    """001, Example 2: f by x + z_2 + 1, by 1 and others; f by itself is not monic."""
    rng = random.Random(701)
    p, degrees = EXAMPLE_MODULUS, EXAMPLE_DEGREES
    others = [EXAMPLE_DIVISOR, one_in_slot(degrees, 1), EXAMPLE_SLOT,
              zero_slot(degrees, 1)]
    others += [monic_slot(rng, p, degrees, degree, degree + 2) for degree in range(4)]
    for b, room in itertools.product(others, (1, 2, 3, 4)):
        yield case(rng, p, degrees, EXAMPLE_SLOT, b, room, room % 3, EXAMPLE_TOWER)
    for length in (37, 38, 39):
        whole = case(rng, p, degrees, EXAMPLE_SLOT, EXAMPLE_DIVISOR, 2,
                     tower=EXAMPLE_TOWER)
        yield replaced(whole, WORK, cases.rubbish(rng, length))


def division_calculator():
    """The worked `div` of document 01, into slots of each room, with more work words."""
    rng = random.Random(702)
    for room, more in itertools.product((1, 2, 3, 5), (0, 3)):
        yield case(rng, 7, (2,), [2, 0, 5, 0, -1, 0, 0, 0, 1, 0], [1, 1, 0, 6, 0, 1, 0],
                   room, more, [2, 5, 0, 1])


def division_tiny():
    """Every polynomial by every other of few coefficients, modulo 2, 3 and 4."""
    rng = random.Random(703)
    for p, highest_a, highest_b in [(2, 3, 2), (3, 2, 1), (4, 1, 1)]:
        tower = Tower(p, ())
        for f, g in itertools.product(samples.all_polynomials(tower, 0, highest_a),
                                      samples.all_polynomials(tower, 0, highest_b)):
            yield of_values(rng, tower, f, g, more=rng.randrange(2))


def division_room():
    """6: every two degrees, q of one coefficient less, as many as needed, and more."""
    rng = random.Random(704)
    for p, degrees in [(4, ()), (6, (2,)), (2147483647, (2,))]:
        for degree_a, degree_b in itertools.product(range(-1, 5), range(4)):
            needed = room_for_quotient(degree_a, degree_b)
            a = random_slot(rng, p, degrees, degree_a, degree_a + 2)
            b = monic_slot(rng, p, degrees, degree_b, degree_b + 1)
            for room in range(max(needed - 1, 1), needed + 2):
                yield case(rng, p, degrees, a, b, room, rng.randrange(2))


def division_by_zero():
    """A zero b needs deg a + 2 coefficients in q, and is 6 before it is 8."""
    rng = random.Random(705)
    for p, degrees in RINGS[::2]:
        for degree in (-1, 0, 2):
            a = random_slot(rng, p, degrees, degree, degree + 2)
            b = zero_slot(degrees, rng.randint(1, 2))
            for room in sorted({1, degree + 1, degree + 2, degree + 3} - {0}):
                yield case(rng, p, degrees, a, b, room)
    for degree, count in [(254, 255), (254, 256), (255, 256)]:
        a = random_slot(rng, 7, (), degree, 256)
        yield case(rng, 7, (), a, zero_slot((), 1), count)


def division_leading():
    """8: every leading coefficient of small rings, 1 among them; 6 and 7 before it."""
    rng = random.Random(706)
    for p, degrees in [(4, ()), (6, ()), (7, ()), (3, (2,)), (2, (3,)), (2, (2, 2))]:
        tower = samples.power_tower(p, degrees)
        level = len(degrees)
        f = cases.polynomial_of_degree(rng, tower, 2)
        for last in samples.all_elements(tower, level):
            if not ring.is_zero(level, last):
                low = samples.random_element(rng, tower, level)
                yield of_values(rng, tower, f, (last,))
                yield of_values(rng, tower, f, (low, last), 1)
        yield of_values(rng, tower, f, (f[-1], f[-1]), -1)
        whole = of_values(rng, tower, f, (f[-1], f[-1]))
        yield replaced(whole, WORK, whole[WORK][:-1])


def division_not_one():
    """'Taking an element for 1 because its degree word is 0': -1, and 1 + z_i."""
    rng = random.Random(707)
    for p, degrees in [(7, (2,)), (5, (3, 2)), (4, (2, 2, 2)), (3, (2, 2, 2, 2))]:
        tower, level = samples.power_tower(p, degrees), len(degrees)
        one = ring.one(level)
        leading = [one, constant(level, 0, p - 1)]
        leading += [constant(level, i, (ring.one(i - 1),) * 2)
                    for i in range(1, level + 1)]
        for last in leading:
            yield of_values(rng, tower, (one, one), (last,))
            yield of_values(rng, tower, (one, one), (one, last))


def division_exact():
    """b times a quotient, and the same with a remainder of each degree added."""
    rng = random.Random(708)
    for p, degrees in RINGS:
        tower = samples.power_tower(p, degrees)
        level = len(degrees)
        for degree_b, degree_q in [(0, 1), (1, 1), (2, 0)]:
            g = samples.random_monic(rng, tower, level, degree_b)
            q = cases.polynomial_of_degree(rng, tower, degree_q)
            product = ring.poly_multiply(tower, level, g, q)
            for degree in range(-1, degree_b):
                r = cases.polynomial_of_degree(rng, tower, degree)
                f = ring.poly_add(tower, level, product, r)
                yield of_values(rng, tower, f, g, rng.randrange(2), rng.randrange(2))


def division_by_one():
    """The divisor 1, of degree 0, in slots of one and more coefficients."""
    rng = random.Random(709)
    for p, degrees in RINGS:
        for degree, room in [(-1, 1), (0, 2), (2, 1)]:
            yield case(rng, p, degrees, random_slot(rng, p, degrees, degree, 3),
                       one_in_slot(degrees, room), degree + 2)


def division_lower():
    """a zero, of a lower degree than b, and of the same: q is zero or a constant."""
    rng = random.Random(710)
    for p, degrees in RINGS:
        b = monic_slot(rng, p, degrees, 2, 3)
        for degree in (-1, 0, 1, 2):
            a = random_slot(rng, p, degrees, degree, rng.randint(max(degree + 1, 1), 4))
            yield case(rng, p, degrees, a, b, rng.randint(1, 2))


def division_gaps():
    """x to a power by x to a lower one and a constant: coefficients that are zero."""
    rng = random.Random(711)
    for tower in [Tower(2, ()), Tower(6, ()), Tower(2147483647, ()), T7]:
        level = ring.top_level(tower)
        for power, lower in [(4, 1), (6, 2), (7, 3), (9, 4), (5, 5), (12, 4)]:
            f = ring.poly_shift(level, (ring.one(level),), power)
            c = samples.random_element(rng, tower, level)
            g = (c,) + (ring.zero(level),) * (lower - 1) + (ring.one(level),)
            yield of_values(rng, tower, f, g, rng.randrange(2))
            yield of_values(rng, tower, (c,) + f[1:], g)


def division_near_p():
    """Residues at both ends of their range: every two, p at its own ends."""
    rng = random.Random(712)
    for p in (2, 3, 2147483646, 2147483647):
        ends = sorted({1, p // 2, p // 2 + 1, p - 2, p - 1} - {0, p})
        for first, second in itertools.product(ends, repeat=2):
            yield of_values(rng, Tower(p, ()), (second, first), (second, 1))


def division_of_largest():
    """Every residue p - 1: the largest sums of products, with 0 to 2 levels."""
    rng = random.Random(713)
    for p in (2147483646, 2147483647):
        for degree_a, degree_b in [(2, 1), (16, 8), (255, 128)]:
            yield of_values(rng, Tower(p, ()), (p - 1,) * (degree_a + 1),
                            (p - 1,) * degree_b + (1,))
        for tower, element, one in samples.largest_residues(p):
            yield of_values(rng, tower, (element,) * 3, (element, one))


def division_towers():
    """Fields and other rings by name: random polynomials, slots longer than needed."""
    rng = random.Random(714)
    for tower in samples.FIELDS + samples.NOT_FIELDS + samples.LARGER_NOT_FIELDS:
        level = ring.top_level(tower)
        for degree in (0, 1, 2):
            f = samples.random_polynomial(rng, tower, level, 4)
            g = samples.random_monic(rng, tower, level, degree)
            yield of_values(rng, tower, f, g, rng.randrange(3), rng.randrange(3))


def division_high_towers():
    """Second program, seed 715: four levels, and polynomials of a high degree below x."""
    rng = random.Random(715)
    for p, degrees in HIGH_TOWERS:
        tower = samples.random_tower(rng, p, degrees)
        for degree_a, degree_b in [(0, 0), (1, 1), (2, 1)]:
            f = cases.polynomial_of_degree(rng, tower, degree_a)
            g = samples.random_monic(rng, tower, len(degrees), degree_b)
            yield of_values(rng, tower, f, g)


def division_largest():
    """'k from 1 to 256' and 'at most 65,536 words': at the limits and above."""
    rng = random.Random(716)
    for degree_a, degree_b, room in [(255, 0, 256), (255, 0, 255), (255, 1, 255),
                                     (255, 128, 128), (254, 255, 1), (255, 255, 256)]:
        yield case(rng, 7, (), random_slot(rng, 7, (), degree_a, 256),
                   monic_slot(rng, 7, (), degree_b, 256), room)
    small = case(rng, 7, (), random_slot(rng, 7, (), 1, 2), one_in_slot((), 1), 2)
    for count in (256, 257):
        yield replaced(small, ANSWER, [0] * (1 + count))
    degrees = (63, 4)  # S_2 = 257, and 255 * 257 + 1 = 65,536.
    small = case(rng, 2, degrees, random_slot(rng, 2, degrees, 1, 2),
                 monic_slot(rng, 2, degrees, 1, 2), 1)
    yield replaced(small, ANSWER, [1] * (1 + 255 * 257))


def division_random():
    """Second program, seed 717: random towers, about half of their m_i products."""
    rng = random.Random(717)
    for _ in range(140):
        p = rng.choice(samples.MODULI + [rng.randrange(2, 2 ** 31)])
        degrees = cases.random_degrees(rng, 20)
        tower = samples.random_tower(rng, p, degrees)
        f = cases.polynomial_of_degree(rng, tower, rng.randint(-1, 4))
        g = samples.random_monic(rng, tower, len(degrees), rng.randint(0, 2))
        yield of_values(rng, tower, f, g, rng.randrange(3), rng.randrange(4))


DIVISION = BOTH + [
    division_example, division_calculator, division_tiny, division_room,
    division_by_zero, division_leading, division_not_one, division_exact,
    division_by_one, division_lower, division_gaps, division_near_p,
    division_of_largest, division_towers, division_high_towers, division_largest,
    division_random]
