"""The tower of residue rings of document 01, and polynomials over its levels.

An element of R_0 is an int from 0 to p-1. An element of R_i, i >= 1, is the
tuple of its coefficients in R_(i-1), lowest first, with no trailing zeros. So
the zero of R_0 is 0, and the zero of every higher level is the empty tuple.
A polynomial over R_i is a tuple of elements of R_i by the same rule, and its
zero is the empty tuple too.

Text in quotes in this folder is from document 01, with * for its product dot.
"""

from collections import namedtuple

# modulus: the number p; polynomials: m_1 first, each monic over the level below.
Tower = namedtuple("Tower", "modulus polynomials")


def top_level(tower):
    """The number N: 'A tower has N levels, 0 to 4'."""
    return len(tower.polynomials)


def tower_polynomial(tower, level):
    """'Level i has a polynomial m_i, monic in z_i, of degree d_i'."""
    return tower.polynomials[level - 1]


def degrees(tower):
    """The degrees d_1 to d_N."""
    return tuple(degree(m) for m in tower.polynomials)


def part_below(tower, level):
    """The same modulus with m_1 to m_level only."""
    return Tower(tower.modulus, tower.polynomials[:level])


# Elements of one level.

def zero(level):
    """The zero of R_level."""
    return 0 if level == 0 else ()


def one(level):
    """The one of R_level. Degree 0 alone does not make an element 1."""
    return 1 if level == 0 else (one(level - 1),)


def is_zero(level, a):
    """Whether the element a is the zero of its level."""
    return a == zero(level)


def add(tower, level, a, b):
    """The sum in R_level; 'R_0 is the whole numbers modulo p'."""
    if level == 0:
        return (a + b) % tower.modulus
    return poly_add(tower, level - 1, a, b)


def negate(tower, level, a):
    """The negative in R_level."""
    if level == 0:
        return -a % tower.modulus
    return poly_negate(tower, level - 1, a)


def subtract(tower, level, a, b):
    """The difference in R_level."""
    return add(tower, level, a, negate(tower, level, b))


def multiply(tower, level, a, b):
    """The product in R_level."""
    if level == 0:
        return (a * b) % tower.modulus
    return reduce(tower, level, poly_multiply(tower, level - 1, a, b))


def reduce(tower, level, f):
    """'R_i is the polynomials in z_i over R_(i-1), modulo m_i'."""
    m = tower_polynomial(tower, level)
    return poly_divide(tower, level - 1, f, m)[1]


# Polynomials over one level. In each call, level is that of the coefficients.

def degree(f):
    """The degree, -1 for the zero polynomial."""
    return len(f) - 1


def without_trailing_zeros(level, coefficients):
    """The polynomial with these coefficients."""
    count = len(coefficients)
    while count > 0 and is_zero(level, coefficients[count - 1]):
        count -= 1
    return tuple(coefficients[:count])


def coefficient(level, f, place):
    """The coefficient at a place, zero above the degree."""
    return f[place] if place < len(f) else zero(level)


def leading(f):
    """The leading coefficient of a polynomial that is not zero."""
    return f[-1]


def is_monic(level, f):
    """Whether the leading coefficient is there and is 1."""
    return f != () and leading(f) == one(level)


def poly_add(tower, level, f, g):
    """The sum of two polynomials."""
    count = max(len(f), len(g))
    return without_trailing_zeros(level, [
        add(tower, level, coefficient(level, f, k), coefficient(level, g, k))
        for k in range(count)])


def poly_negate(tower, level, f):
    """The negative of a polynomial."""
    return tuple(negate(tower, level, c) for c in f)


def poly_subtract(tower, level, f, g):
    """The difference of two polynomials."""
    return poly_add(tower, level, f, poly_negate(tower, level, g))


def poly_scale(tower, level, factor, f):
    """An element times a polynomial; the degree may fall."""
    return without_trailing_zeros(
        level, [multiply(tower, level, factor, c) for c in f])


def poly_shift(level, f, places):
    """The polynomial times x to the power places."""
    return () if f == () else (zero(level),) * places + f


def poly_multiply(tower, level, f, g):
    """The product; 'Modulo 6, (2x + 1)(3x + 1) = 5x + 1': its degree may be lower."""
    if f == () or g == ():
        return ()
    sums = [zero(level)] * (len(f) + len(g) - 1)
    for i, c in enumerate(f):
        for j, e in enumerate(g):
            term = multiply(tower, level, c, e)
            sums[i + j] = add(tower, level, sums[i + j], term)
    return without_trailing_zeros(level, sums)


def poly_divide(tower, level, f, g):
    """Quotient and remainder: 'division by a monic polynomial'."""
    if not is_monic(level, g):
        raise ValueError("the divisor is not monic, or zero")
    quotient = ()
    remainder = f
    while degree(remainder) >= degree(g):
        places = degree(remainder) - degree(g)
        c = leading(remainder)
        quotient = poly_add(tower, level, quotient, poly_shift(level, (c,), places))
        product = poly_shift(level, poly_scale(tower, level, c, g), places)
        remainder = poly_subtract(tower, level, remainder, product)
    return quotient, remainder
