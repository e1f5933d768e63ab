"""Towers that fall apart, and elements of them that are made to show a factor.

Each m_i is f * g with g = f * q + 1, all monic, so f and g have no factor in
common over any ring below. By the Chinese remainder theorem every two remainders
u of f and v of g belong to one element of R_i, and here it is found without a
sequence: f * -q is 1 modulo g.
"""

from collections import namedtuple

from second import ring, samples
from second.cases_both import constant
from second.ring import Tower

# tower: a Tower; parts: for m_1 first the triple (f, g, q).
Split = namedtuple("Split", "tower parts")


def split_polynomial(rng, tower, d):
    """f, g and q over R_N for a polynomial of degree d; f has the lower degree."""
    level = ring.top_level(tower)
    low = rng.randint(1, d // 2)
    f = samples.random_monic(rng, tower, level, low)
    q = samples.random_monic(rng, tower, level, d - 2 * low)
    product = ring.poly_multiply(tower, level, f, q)
    return f, ring.poly_add(tower, level, product, (ring.one(level),)), q


def split_tower(rng, p, degrees):
    """A tower of these degrees in which every m_i falls apart."""
    tower, parts = Tower(p, ()), ()
    for level, d in enumerate(degrees):
        f, g, q = split_polynomial(rng, tower, d)
        m = ring.poly_multiply(tower, level, f, g)
        tower, parts = Tower(p, tower.polynomials + (m,)), parts + ((f, g, q),)
    return Split(tower, parts)


def joined(split, level, u, v):
    """The element of R_level with the remainders u of f and v of g: u + f * w."""
    tower, below = split.tower, level - 1
    f, g, q = split.parts[below]
    w = ring.poly_multiply(tower, below, ring.poly_subtract(tower, below, u, v), q)
    w = ring.poly_divide(tower, below, w, g)[1]
    return ring.poly_add(tower, below, u, ring.poly_multiply(tower, below, f, w))


def all_joined(rng, split, level):
    """Elements that are not 0: one remainder 0, two random ones, 1 and 0, 1 and -1."""
    tower, below = split.tower, level - 1
    u, v = (samples.random_polynomial(rng, tower, below, ring.degree(m) - 1)
            for m in split.parts[below][:2])
    one = ring.one(level)
    minus_one = ring.poly_negate(tower, below, one)
    remainders = [((), v), (u, ()), (u, v), (one, ()), ((), one), (one, minus_one)]
    return [c for c in (joined(split, level, *pair) for pair in remainders) if c != ()]


# Elements that show a factor at one level.

def divisor(rng, p):
    """A number between 1 and p that divides it, or 0 for a prime p."""
    small = [h for h in range(2, min(p, 400)) if p % h == 0]
    return rng.choice(small) if small else 0


def showing(rng, split, level):
    """An element of R_level that shows a factor there, or 0 where p is prime."""
    if level == 0:
        return divisor(rng, split.tower.modulus)
    return rng.choice(split.parts[level - 1][:2])


def led_by(rng, tower, level, below, value):
    """An element of R_level whose leading coefficients lead down to the value."""
    if level == below:
        return value
    d = ring.degree(ring.tower_polynomial(tower, level))
    lower = [samples.random_element(rng, tower, level - 1)
             for _ in range(rng.randrange(d))]
    return (*lower, led_by(rng, tower, level - 1, below, value))


def all_showing(rng, split):
    """Elements of R_N that show a factor, for each level that has one."""
    top = ring.top_level(split.tower)
    for level in range(top + 1):
        value = showing(rng, split, level)
        if value != 0:
            yield constant(top, level, value)
            if level < top:
                yield led_by(rng, split.tower, top, level, value)


def showing_later(rng, p, degrees, level):
    """A tower and an element c whose first remainder shows a factor at a level.

    m_N = c * (z_N + s) + w, c monic of degree d_N - 1, and w of R_(N-1) shows it;
    for a prime p and level 0, or for N = 0, there is none.
    """
    split = split_tower(rng, p, degrees[:-1])
    below = len(degrees) - 1
    value = showing(rng, split, level)
    if value == 0:
        return None
    w = led_by(rng, split.tower, below, level, value)
    c = samples.random_monic(rng, split.tower, below, degrees[-1] - 1)
    other = (samples.random_element(rng, split.tower, below), ring.one(below))
    m = ring.poly_add(split.tower, below, (w,),
                      ring.poly_multiply(split.tower, below, c, other))
    return Tower(p, split.tower.polynomials + (m,)), c


# Prime and composite moduli for N = 1 to 4, all of whose towers fall apart.
RINGS = [(2, (2,)), (7, (2,)), (4, (3,)), (2147483647, (4,)), (2147483646, (2,)),
         (2, (5,)), (6, (2, 2)), (5, (3, 2)), (2, (2, 3)), (2147483647, (2, 2)),
         (9, (2, 3)), (6, (2, 2, 2)), (3, (2, 3, 2)), (2147483646, (2, 2, 2)),
         (4, (2, 2, 2, 2)), (6, (2, 2, 2, 2)), (2147483647, (2, 2, 2, 2)),
         (2, (3, 2, 2, 2))]
