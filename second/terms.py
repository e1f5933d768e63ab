"""Polynomials another way, to check products and divisions by: as sums of terms.

A polynomial is a dict: the exponents of x, z_N, .., z_1 and the residue there, if
it is not 0. So it has no levels and no degree words; m_i has the exponents of z_i,
.., z_1. A product is taken over whole numbers of terms, and z_i to the power d_i
is put away afterwards, from z_N down to z_1.
"""

import itertools

from second import words


def terms_of(degrees, block):
    """The terms of a degree word and elements of R_N; no degree word is read."""
    size = words.sizes(degrees)[::-1]
    ranges = [range((len(block) - 1) // size[0])] + [range(d) for d in degrees[::-1]]
    held = {}
    for exponents in itertools.product(*ranges):
        residue = block[sum(1 + e * s for e, s in zip(exponents, size))]
        if residue != 0:
            held[exponents] = residue
    return held


def tower_terms(degrees, tower):
    """The terms of m_1, .., m_N."""
    return [terms_of(degrees[:below], part)
            for below, part in enumerate(words.tower_parts(degrees, tower))]


def add_term(p, f, exponents, residue):
    """Adds one term to f, and drops it where it becomes 0."""
    residue = (f.pop(exponents, 0) + residue) % p
    if residue != 0:
        f[exponents] = residue


def plus(p, f, g):
    """The sum."""
    result = dict(f)
    for exponents, residue in g.items():
        add_term(p, result, exponents, residue)
    return result


def times(p, f, g):
    """The product, no power put away."""
    result = {}
    for (e, r), (other_e, other_r) in itertools.product(f.items(), g.items()):
        add_term(p, result, tuple(map(sum, zip(e, other_e))), r * other_r)
    return result


def put_away(p, f, exponents, m, d):
    """The term of f at these exponents less a multiple of m, of degree d in its first."""
    place = len(exponents) - len(next(iter(m)))
    residue = f[exponents]
    moved = exponents[:place] + (exponents[place] - d,) + exponents[place + 1:]
    for of_m, r in m.items():
        term = moved[:place] + tuple(map(sum, zip(moved[place:], of_m)))
        add_term(p, f, term, -residue * r)


def reduced(p, degrees, polynomials, f):
    """The one polynomial like f modulo the m_i whose powers of z_i are below d_i."""
    result = dict(f)
    for level in range(len(degrees), 0, -1):
        d, m, place = degrees[level - 1], polynomials[level - 1], len(degrees) - level + 1
        highest = max((e[place] for e in result), default=0)
        for power in range(highest, d - 1, -1):
            for exponents in [e for e in result if e[place] == power]:
                put_away(p, result, exponents, m, d)
    return result
