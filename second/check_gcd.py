"""GCDs against search: demand 3 says which divisors a GCD must have."""

import random

from second import ring, samples
from second.ring import Tower, degree

# Rings in which every divisor is tried, not only the monic ones, with the
# highest degree of a, b and h, and a number e.
#
# How far a search for a cofactor must go. For each ring R here, N = 0, or N = 1
# with p prime. So R is a product of rings K in each of which every element but 0
# is a unit times a power of one element t, and t^e = 0. e is the highest power
# of a prime in p, or of an irreducible polynomial in m_1.
# Claim: if h divides f, then f = h * q for some q with
#     deg q <= deg f + (e - 1) * deg h.
# It is enough to show it over each K. If f = 0, q = 0 does. Else write
# h = t^s * h', deg h' = deg h, with h' not zero modulo t. Terms of q with a
# coefficient divisible by t^(e-s) may be left out. Write f = t^s * f',
# deg f' = deg f; then f' = h' * q modulo t^(e-s), and we work modulo that.
# Modulo t, h' is a constant c times a monic polynomial of some degree n. By
# Hensel's lemma h' = v * w with w monic of degree n and v equal to c modulo t.
# Since w is monic, deg v = deg h' - n <= deg h. v has the inverse
# (1/c) * (1 - y + y^2 - ..) with y = v/c - 1, where y^e = 0, so the degree of
# that inverse is at most (e - 1) * deg h. Then w * q is that inverse times f',
# and since w is monic, deg q is not above the degree of that product.
ALL_DIVISORS = [
    (Tower(2, ()), 4, 1),
    (Tower(3, ()), 2, 1),
    (Tower(5, ()), 1, 1),
    (Tower(4, ()), 2, 2),
    (Tower(6, ()), 2, 1),
    (Tower(8, ()), 1, 3),
    (Tower(9, ()), 1, 2),
    (Tower(10, ()), 1, 1),
    (Tower(12, ()), 1, 2),
    (Tower(2, ((1, 1, 1),)), 2, 1),
    (Tower(2, ((0, 1, 1),)), 2, 1),
    (Tower(2, ((0, 0, 1),)), 1, 2),
    (Tower(3, ((2, 0, 1),)), 1, 1),
]

# Rings in which only monic divisors are tried, with the highest degree of the
# divisor. Division by a monic h is exact: h divides f when the remainder is 0.
MONIC_DIVISORS = [
    (Tower(4, ((1, 1, 1),)), 2),
    (Tower(4, ((3, 0, 1),)), 2),
    (Tower(6, ((1, 0, 1),)), 1),
    (Tower(2, ((1, 1, 1), (samples.Z, (1,), (1,)))), 2),
    (Tower(2, ((1, 1, 1), ((), (1,), (1,)))), 2),
    (Tower(2, ((0, 1, 1), (samples.Z, (1,), (1,)))), 2),
    (Tower(3, ((1, 0, 1), ((), samples.Z, (1,)))), 1),
]


def gcds(counter):
    """All pairs of tiny polynomials, then random pairs over larger towers."""
    for tower, highest, power in ALL_DIVISORS:
        all_pairs(counter, tower, highest, power)
    rng = random.Random(5)
    for tower, highest in MONIC_DIVISORS:
        random_pairs_monic_divisors(counter, rng, tower, highest)
    for tower in (samples.random_towers(rng, samples.MODULI, 3, 3)
                  + samples.FIELDS + samples.NOT_FIELDS
                  + samples.LARGER_NOT_FIELDS):
        random_pairs(counter, rng, tower)


def divisors_by_search(tower, highest, power):
    """For each f of degree highest or less, the h of that degree that divide it."""
    level = ring.top_level(tower)
    polynomials = samples.all_polynomials(tower, level, highest)
    cofactors = samples.all_polynomials(tower, level, highest + (power - 1) * highest)
    divisors = {f: set() for f in polynomials}
    for h in polynomials:
        for q in cofactors:
            product = ring.poly_multiply(tower, level, h, q)
            if degree(product) <= highest:
                divisors[product].add(h)
    return divisors


def all_pairs(counter, tower, highest, power):
    """Every pair (a, b): the divisors of a GCD are those of both a and b."""
    divisors = divisors_by_search(tower, highest, power)
    field = samples.without_factors(tower)
    for a in divisors:
        for b in divisors:
            answer = counter.gcd(tower, a, b)
            check_answer(counter.check, tower, a, b, answer)
            if answer[0] == "done":
                counter.check(divisors[answer[1]] == divisors[a] & divisors[b],
                              "divisors", tower, a, b, answer)
            counter.check(answer[0] == "done" or not field,
                          "always in a field", tower, a, b, answer)


def check_answer(check, tower, a, b, answer):
    """A GCD is monic, or zero exactly when both are; a factor is a proper one."""
    level = ring.top_level(tower)
    if answer[0] == "done":
        g = answer[1]
        check(ring.is_monic(level, g) or g == (), "monic", tower, a, b, g)
        check((g == ()) == (a == () and b == ()), "zero", tower, a, b, g)
    else:
        check(answer[0] == "factor" and answer[1] <= level
              and samples.is_proper_factor(tower, *answer[1:]),
              "a proper factor", tower, a, b, answer)


def divides(tower, h, f):
    """Whether the monic polynomial h divides f."""
    return ring.poly_divide(tower, ring.top_level(tower), f, h)[1] == ()


def pair_with_common_factor(rng, tower, common):
    """Two random multiples of a polynomial."""
    level = ring.top_level(tower)
    return [ring.poly_multiply(tower, level, common,
                               samples.random_polynomial(rng, tower, level, 2))
            for _ in range(2)]


def random_pairs_monic_divisors(counter, rng, tower, highest):
    """Random pairs with a common factor; every monic divisor is tried."""
    level = ring.top_level(tower)
    tried = [h for d in range(highest + 1)
             for h in samples.all_monic(tower, level, d)]
    done = 0
    while done < 15:
        common = samples.random_monic(rng, tower, level, rng.randrange(3))
        a, b = pair_with_common_factor(rng, tower, common)
        answer = counter.gcd(tower, a, b)
        check_answer(counter.check, tower, a, b, answer)
        if answer[0] == "done":
            done += 1
            for h in tried:
                both = divides(tower, h, a) and divides(tower, h, b)
                counter.check(divides(tower, h, answer[1]) == both,
                              "monic divisor", tower, a, b, answer, h)


def random_pairs(counter, rng, tower):
    """Random pairs: the GCD divides both, and a known common factor divides it."""
    level = ring.top_level(tower)
    field = tower in samples.FIELDS
    for _ in range(10):
        common = samples.random_monic(rng, tower, level, rng.randrange(3))
        a, b = pair_with_common_factor(rng, tower, common)
        answer = counter.gcd(tower, a, b)
        check_answer(counter.check, tower, a, b, answer)
        counter.check(answer[0] == "done" or not field,
                      "always in a field", tower, a, b, answer)
        if answer[0] == "done" and answer[1] != ():
            g = answer[1]
            counter.check(divides(tower, g, a) and divides(tower, g, b),
                          "the GCD divides both", tower, a, b, g)
            counter.check(divides(tower, common, g),
                          "a common factor divides the GCD", tower, a, b, g)
