"""Cases of the product: p, N, the degrees, tower words, words of a, b, c, work words."""

import functools
import itertools
import random

from second import cases, cases_both, ring, samples
from second.cases_both import (
    ANSWER, BOTH, EXAMPLE_DIVISOR, HIGH_TOWERS, WORK, case, constant, one_in_slot,
    replaced)
from second.cases_slot import EXAMPLE_SLOT, random_slot, zero_slot
from second.cases_sum import RINGS
from second.cases_tower import EXAMPLE_DEGREES, EXAMPLE_MODULUS, EXAMPLE_TOWER
from second.figures import T7
from second.products import room_for_product
from second.ring import Tower

# c has the room that the product needs, and spare coefficients.
of_values = functools.partial(cases_both.of_values, room_for_product)


def product_example():
    """001, Example 2: f with itself, with x + z_2 + 1, with 0, 1 and random ones."""
    rng = random.Random(601)
    p, degrees = EXAMPLE_MODULUS, EXAMPLE_DEGREES
    others = [EXAMPLE_SLOT, EXAMPLE_DIVISOR, zero_slot(degrees, 2),
              one_in_slot(degrees, 1)]
    others += [random_slot(rng, p, degrees, degree, 3) for degree in (0, 1, 2)]
    for other, room in itertools.product(others, (1, 4, 5, 6)):
        for a, b in [(EXAMPLE_SLOT, other), (other, EXAMPLE_SLOT)]:
            yield case(rng, p, degrees, a, b, room, room % 3, EXAMPLE_TOWER)


def product_figures():
    """C4 of document 01, 'Modulo 6, (2x + 1)(3x + 1)', and the like over T7."""
    rng = random.Random(602)
    squared = case(rng, EXAMPLE_MODULUS, EXAMPLE_DEGREES, EXAMPLE_SLOT, EXAMPLE_SLOT,
                   5, tower=EXAMPLE_TOWER)
    for length in (37, 38, 39):
        yield replaced(squared, WORK, cases.rubbish(rng, length))
    for spare, more in itertools.product((0, 1), (0, 2)):
        yield of_values(rng, Tower(6, ()), (1, 2), (1, 3), spare, more)
        yield of_values(rng, T7, ((1,), (3, 1)), ((1,), (4, 1)), spare, more)


def product_tiny():
    """Every pair of polynomials of two coefficients over the rings of two to four."""
    rng = random.Random(603)
    for p in (2, 3, 4):
        values = samples.all_polynomials(Tower(p, ()), 0, 1)
        for f, g in itertools.product(values, repeat=2):
            yield of_values(rng, Tower(p, ()), f, g, more=rng.randrange(2))


def product_elements():
    """Every two elements of every R_1 with p = 2 and d_1 = 2, as polynomials."""
    rng = random.Random(604)
    for m in samples.all_monic(Tower(2, ()), 0, 2):
        tower = Tower(2, (m,))
        values = samples.all_polynomials(tower, 1, 0)
        for f, g in itertools.product(values, repeat=2):
            yield of_values(rng, tower, f, g)


def product_room():
    """6: every two degrees, c of one coefficient less, as many as needed, and more."""
    rng = random.Random(605)
    for p, degrees in [(4, ()), (6, (2,)), (2147483647, (2,))]:
        for degree_a, degree_b in itertools.product((-1, 0, 1, 2, 3), repeat=2):
            needed = room_for_product(degree_a, degree_b)
            a = random_slot(rng, p, degrees, degree_a, 4)
            b = random_slot(rng, p, degrees, degree_b, degree_b + 2)
            for room in range(max(needed - 1, 1), needed + 2):
                yield case(rng, p, degrees, a, b, room, rng.randrange(2))


def zero_divisors():
    """Towers with two elements, neither of them zero, whose product is."""
    yield from [(Tower(4, ()), 2, 2), (Tower(6, ()), 2, 3), (T7, (3, 1), (4, 1)),
                (Tower(2147483646, ()), 2, 1073741823)]
    for p, degrees in [(5, (2,)), (2, (3, 2)), (4, (2, 2)), (3, (2,) * 3), (2, (2,) * 4)]:
        top = len(degrees)
        for below, d in enumerate(degrees):
            one = (ring.one(below),)
            u, v = (ring.poly_shift(below, one, places) for places in (1, d - 1))
            yield (samples.power_tower(p, degrees), constant(top, below + 1, u),
                   constant(top, below + 1, v))


def product_vanishing():
    """'even where the leading product vanishes': the degree falls, also to -1."""
    rng = random.Random(606)
    for tower, u, v in zero_divisors():
        level = ring.top_level(tower)
        for degree_a, degree_b in [(1, 0), (1, 1)]:
            lower_a, lower_b = (
                [samples.random_element(rng, tower, level) for _ in range(degree)]
                for degree in (degree_a, degree_b))
            yield of_values(rng, tower, (*lower_a, u), (*lower_b, v))
            f = ring.poly_scale(tower, level, u, (*lower_a, ring.one(level)))
            g = ring.poly_scale(tower, level, v, (*lower_b, ring.one(level)))
            yield of_values(rng, tower, f, g)
        yield of_values(rng, tower, (ring.zero(level), u), (ring.one(level), v), -1)


def product_with_zero():
    """'1 if either is zero': a, b or both; M(N) work words all the same."""
    rng = random.Random(607)
    for p, degrees in RINGS:
        zero, longer = zero_slot(degrees, 1), zero_slot(degrees, 2)
        other = random_slot(rng, p, degrees, 2, 3)
        for a, b in [(other, zero), (longer, other), (zero, longer)]:
            yield case(rng, p, degrees, a, b, rng.randint(1, 2), rng.randrange(3))
        short = case(rng, p, degrees, other, zero, 1)
        yield replaced(short, WORK, short[WORK][:-1])


def product_near_p():
    """Residues at both ends of their range: every pair, p at its own ends."""
    rng = random.Random(608)
    for p in (2, 3, 2147483646, 2147483647):
        ends = sorted({1, p // 2, p // 2 + 1, p - 2, p - 1} - {0, p})
        for first, second in itertools.product(ends, repeat=2):
            yield of_values(rng, Tower(p, ()), (first,), (1, second))


def product_of_largest():
    """Every residue p - 1: the largest sums of products, with 0 to 2 levels."""
    rng = random.Random(609)
    for p in (2147483646, 2147483647):
        tower = Tower(p, ())
        for degree_a, degree_b in [(1, 1), (7, 8), (127, 128)]:
            yield of_values(rng, tower, (p - 1,) * (degree_a + 1),
                            (p - 1,) * (degree_b + 1))
        for tower, element, _ in samples.largest_residues(p):
            yield of_values(rng, tower, (element,) * 2, (element,) * 2)


def product_powers():
    """x to a power times a polynomial, whose coefficients move and stay."""
    rng = random.Random(610)
    for p, degrees in RINGS:
        tower = samples.power_tower(p, degrees)
        level = len(degrees)
        f = cases.polynomial_of_degree(rng, tower, 1)
        for places in (0, 2):
            power = ring.poly_shift(level, (ring.one(level),), places)
            yield of_values(rng, tower, f, power, 1)
            yield of_values(rng, tower, power, f)


def product_towers():
    """Fields and other rings by name: random polynomials, slots longer than needed."""
    rng = random.Random(611)
    for tower in samples.FIELDS + samples.NOT_FIELDS + samples.LARGER_NOT_FIELDS:
        level = ring.top_level(tower)
        for _ in range(3):
            f, g = (samples.random_polynomial(rng, tower, level, 3) for _ in range(2))
            yield of_values(rng, tower, f, g, rng.randrange(3), rng.randrange(3))


def product_high_towers():
    """Second program, seed 614: four levels, and polynomials of a high degree below x."""
    rng = random.Random(614)
    for p, degrees in HIGH_TOWERS:
        tower = samples.random_tower(rng, p, degrees)
        for degree_a, degree_b in [(0, 0), (1, 0), (1, 1)]:
            f = cases.polynomial_of_degree(rng, tower, degree_a)
            g = cases.polynomial_of_degree(rng, tower, degree_b)
            yield of_values(rng, tower, f, g)


def product_largest():
    """'k from 1 to 256' and 'at most 65,536 words': at the limits and above."""
    rng = random.Random(612)
    for degree_a, degree_b, room in [(127, 128, 256), (128, 128, 256), (255, 0, 256),
                                     (0, 255, 255), (255, -1, 1), (255, 255, 256)]:
        yield case(rng, 7, (), random_slot(rng, 7, (), degree_a, 256),
                   random_slot(rng, 7, (), degree_b, 256), room)
    small = case(rng, 7, (), random_slot(rng, 7, (), 1, 2), one_in_slot((), 1), 2)
    for count in (256, 257):
        yield replaced(small, ANSWER, [0] * (1 + count))
    degrees = (63, 4)  # S_2 = 257, and 255 * 257 + 1 = 65,536.
    a, b = (random_slot(rng, 2, degrees, 0, 1) for _ in range(2))
    small = case(rng, 2, degrees, a, b, 1)
    for count in (255, 256):
        yield replaced(small, ANSWER, [1] * (1 + count * 257))


def product_random():
    """Second program, seed 613: random towers, about half of their m_i products."""
    rng = random.Random(613)
    for _ in range(140):
        p = rng.choice(samples.MODULI + [rng.randrange(2, 2 ** 31)])
        degrees = cases.random_degrees(rng, 20)
        tower = samples.random_tower(rng, p, degrees)
        f, g = (cases.polynomial_of_degree(rng, tower, rng.randint(-1, 3))
                for _ in range(2))
        yield of_values(rng, tower, f, g, rng.randrange(3), rng.randrange(4))


PRODUCT = BOTH + [
    product_example, product_figures, product_tiny, product_elements, product_room,
    product_vanishing, product_with_zero, product_near_p, product_of_largest,
    product_powers, product_towers, product_high_towers, product_largest,
    product_random]
