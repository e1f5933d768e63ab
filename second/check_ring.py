"""Ring laws and division, for random values over random towers."""

import random

from second import ring, samples, sequence, words
from second.ring import degree


def ring_laws(counter):
    """Laws of the residue rings for random elements of random towers."""
    check = counter.check
    rng = random.Random(2)
    towers = samples.random_towers(rng, samples.MODULI, 3, 3)
    for tower in towers + samples.FIELDS + samples.NOT_FIELDS:
        level = ring.top_level(tower)
        for _ in range(12):
            laws_of_three(check, tower, level, *[
                samples.random_element(rng, tower, level) for _ in range(3)])
        for i in range(1, level + 1):
            root_of_tower_polynomial(check, tower, i)


def laws_of_three(check, tower, level, a, b, c):
    """The laws of a commutative ring with one, for three elements."""
    def plus(x, y):
        return ring.add(tower, level, x, y)

    def times(x, y):
        return ring.multiply(tower, level, x, y)

    where = (tower, a, b, c)
    check(plus(a, b) == plus(b, a), "a + b = b + a", *where)
    check(times(a, b) == times(b, a), "a * b = b * a", *where)
    check(plus(plus(a, b), c) == plus(a, plus(b, c)), "sum of three", *where)
    check(times(times(a, b), c) == times(a, times(b, c)), "product of three", *where)
    check(times(a, plus(b, c)) == plus(times(a, b), times(a, c)), "a(b + c)", *where)
    check(plus(a, ring.zero(level)) == a, "a + 0 = a", *where)
    check(times(a, ring.one(level)) == a, "a * 1 = a", *where)
    minus_a = ring.negate(tower, level, a)
    check(plus(a, minus_a) == ring.zero(level), "a - a = 0", *where)
    check(ring.subtract(tower, level, b, a) == plus(b, minus_a), "b - a", *where)
    written = words.element_to_words(ring.degrees(tower), level, times(a, b))
    check(words.element_in_form(tower.modulus, ring.degrees(tower), level, written),
          "a product is one element", *where)


def root_of_tower_polynomial(check, tower, level):
    """In R_i the powers of z_i below d_i are themselves, and m_i of z_i is zero."""
    z = (ring.zero(level - 1), ring.one(level - 1))
    power, value = ring.one(level), ring.zero(level)
    m = ring.tower_polynomial(tower, level)
    for k, c in enumerate(m):
        if k < degree(m):
            plain = (ring.zero(level - 1),) * k + (ring.one(level - 1),)
            check(power == plain, "a power of z", tower, level, k)
        term = ring.poly_scale(tower, level - 1, c, power)
        value = ring.add(tower, level, value, term)
        power = ring.multiply(tower, level, power, z)
    check(value == ring.zero(level), "m of z is zero", tower, level)


def division(counter):
    """Quotient and remainder by monic polynomials, for random polynomials."""
    check = counter.check
    rng = random.Random(3)
    towers = samples.random_towers(rng, samples.MODULI, 3, 3)
    for tower in towers + samples.FIELDS + samples.NOT_FIELDS:
        level = ring.top_level(tower)
        for _ in range(8):
            a = samples.random_polynomial(rng, tower, level, 5)
            b = samples.random_monic(rng, tower, level, rng.randrange(4))
            kind, (q, r) = sequence.divide(tower, a, b)
            where = (tower, a, b)
            again = ring.poly_add(
                tower, level, ring.poly_multiply(tower, level, q, b), r)
            check(kind == "done" and again == a, "a = q * b + r", *where)
            check(degree(r) < degree(b), "deg r < deg b", *where)
            check(degree(q) == max(degree(a) - degree(b), -1), "deg q", *where)
            # Built from a chosen quotient and remainder, the same two come back.
            r = samples.random_polynomial(rng, tower, level, degree(b) - 1)
            built = ring.poly_add(
                tower, level, ring.poly_multiply(tower, level, a, b), r)
            check(sequence.divide(tower, built, b) == ("done", (a, r)),
                  "only one quotient and remainder", *where)
