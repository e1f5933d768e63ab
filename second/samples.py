"""Values to try: every value of a tiny ring, random values, and towers."""

import itertools

from second.ring import (
    Tower, degree, negate, one, part_below, poly_divide, poly_multiply, top_level,
    tower_polynomial, without_trailing_zeros, zero)


# Every value.

def all_elements(tower, level):
    """Every element of R_level once."""
    if level == 0:
        return list(range(tower.modulus))
    d = degree(tower_polynomial(tower, level))
    return all_polynomials(tower, level - 1, d - 1)


def all_polynomials(tower, level, highest):
    """Every polynomial over R_level of degree highest or less once."""
    elements = all_elements(tower, level)
    choices = itertools.product(elements, repeat=highest + 1)
    return [without_trailing_zeros(level, c) for c in choices]


def all_monic(tower, level, d):
    """Every monic polynomial over R_level of degree d once."""
    elements = all_elements(tower, level)
    choices = itertools.product(elements, repeat=d)
    return [c + (one(level),) for c in choices]


# Random values. Zero coefficients are made frequent.

def random_element(rng, tower, level):
    """A random element of R_level."""
    if level == 0:
        return 0 if rng.random() < 0.2 else rng.randrange(tower.modulus)
    d = degree(tower_polynomial(tower, level))
    return random_polynomial(rng, tower, level - 1, d - 1)


def random_polynomial(rng, tower, level, highest):
    """A random polynomial over R_level of degree highest or less."""
    count = rng.randrange(highest + 2)
    return without_trailing_zeros(
        level, [random_element(rng, tower, level) for _ in range(count)])


def random_monic(rng, tower, level, d):
    """A random monic polynomial over R_level of degree d."""
    lower = [random_element(rng, tower, level) for _ in range(d)]
    return tuple(lower) + (one(level),)


def random_tower(rng, modulus, degrees):
    """A random tower; about half of its polynomials are products of two."""
    tower = Tower(modulus, ())
    for level, d in enumerate(degrees):
        if rng.random() < 0.5:
            m = random_monic(rng, tower, level, d)
        else:
            part = rng.randrange(1, d)
            m = poly_multiply(tower, level,
                              random_monic(rng, tower, level, part),
                              random_monic(rng, tower, level, d - part))
        tower = Tower(modulus, tower.polynomials + (m,))
    return tower


def random_towers(rng, moduli, highest_level, highest_degree):
    """One random tower for each modulus and each N from 0 to highest_level."""
    return [random_tower(rng, modulus, [rng.randint(2, highest_degree)
                                        for _ in range(levels)])
            for modulus in moduli for levels in range(highest_level + 1)]


def power_tower(modulus, degrees):
    """The tower in which each m_i is a power of z_i."""
    return Tower(modulus, tuple((zero(level),) * d + (one(level),)
                                for level, d in enumerate(degrees)))


def field_tower(p, levels):
    """Square roots on square roots: a field for a prime p of the form 4k + 3.

    z_1^2 = -1; z_2^2 = 1 + k * z_1, whose norm 1 + k^2 is no square; from then on
    z_i^2 = z_(i-1). An element of each field is a square exactly when its norm to
    the one below is, and the norm of z_i is -z_i^2.
    """
    k = next(k for k in range(1, p) if pow(1 + k * k, (p - 1) // 2, p) == p - 1)
    squares = [p - 1, (1, k), ((), (1,)), ((), ((1,),))]
    tower = Tower(p, ())
    for level, square in enumerate(squares[:levels]):
        m = (negate(tower, level, square), zero(level), one(level))
        tower = Tower(p, tower.polynomials + (m,))
    return tower


# Which towers are without factors.

def is_proper_factor(tower, level, value):
    """Demand 3: a monic proper factor of m_level, or of p at level 0."""
    if level == 0:
        return 1 < value < tower.modulus and tower.modulus % value == 0
    m = tower_polynomial(tower, level)
    if not 1 <= degree(value) <= degree(m) - 1:
        return False
    if value[-1] != one(level - 1):
        return False
    return poly_divide(tower, level - 1, m, value)[1] == ()


def without_factors(tower):
    """Whether neither p nor any m_i has a proper factor, by trying them all."""
    if any(is_proper_factor(tower, 0, h) for h in range(2, tower.modulus)):
        return False
    for level in range(1, top_level(tower) + 1):
        d = degree(tower_polynomial(tower, level))
        for part in range(1, d):
            if any(is_proper_factor(part_below(tower, level), level, h)
                   for h in all_monic(tower, level - 1, part)):
                return False
    return True


# Moduli for random towers: prime, composite, and at both ends of the range.

MODULI = [2, 3, 4, 5, 6, 9, 12, 97, 2147483646, 2147483647]


# Chosen towers. Z is z_1 as an element of R_1, for a prime or composite p.

Z = (0, 1)

FIELDS = [
    Tower(2, ()),
    Tower(3, ()),
    Tower(7, ()),
    Tower(2, ((1, 1, 1),)),
    Tower(2, ((1, 1, 0, 1),)),
    Tower(3, ((1, 0, 1),)),
    Tower(7, ((1, 0, 1),)),
    Tower(2, ((1, 1, 1), (Z, (1,), (1,)))),
    Tower(2, ((1, 1, 0, 1), ((1,), (1,), (1,)))),
    Tower(3, ((1, 0, 1), ((1, 1), (), (1,)))),
]

NOT_FIELDS = [
    Tower(4, ()),
    Tower(6, ()),
    Tower(12, ()),
    Tower(2, ((0, 0, 1),)),
    Tower(2, ((0, 1, 1),)),
    Tower(2, ((0, 0, 1, 1),)),
    Tower(3, ((2, 0, 1),)),
    Tower(3, ((1, 2, 1),)),
    Tower(3, ((0, 1, 0, 1),)),
    Tower(4, ((1, 1, 1),)),
    Tower(4, ((3, 0, 1),)),
    Tower(4, ((1, 2, 0, 1),)),
    Tower(6, ((1, 0, 1),)),
    Tower(6, ((5, 1, 1),)),
    Tower(2, ((1, 1, 1), ((), (1,), (1,)))),
    Tower(2, ((0, 1, 1), (Z, (1,), (1,)))),
    Tower(2, ((1, 0, 1), ((1,), Z, (), (1,)))),
]

# Rings of more elements, where not every product is tried.
LARGER_NOT_FIELDS = [
    Tower(3, ((1, 0, 1), ((), Z, (1,)))),
    Tower(3, ((0, 2, 1), ((1,), (1, 1), (1,)))),
    Tower(6, ((1, 2, 0, 1),)),
    Tower(6, ((1, 0, 1), (Z, (3,), (1,)))),
    Tower(4, ((1, 1, 1), (Z, (2,), (1,)))),
    Tower(3, ((1, 2, 0, 1), (Z, (1,), (1,)))),
    Tower(2, ((1, 1, 1), ((), (1,), (1,)), ((Z,), (), ((1,),)))),
]


def largest_residues(p):
    """Towers of one and two levels and an element of each, every residue p - 1; and 1."""
    for d in (2, 3, 64):
        yield Tower(p, ((p - 1,) * d + (1,),)), (p - 1,) * d, (1,)
    row = ((p - 1, p - 1),) * 3
    yield Tower(p, ((p - 1, p - 1, 1), row + ((1,),))), row, ((1,),)
