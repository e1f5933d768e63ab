"""The remainder sequences of document 01, step for step in its order.

Every public call at the end of this file gives one of
    ('done', value)   ('factor', level, value)   ('refused', number)
'Done, a shown factor with its level, and a refusal are three kinds of answer.'
A factor at level 0 is a number, at level i >= 1 a polynomial over R_(i-1).
"""

import math

from second.ring import (
    degree, is_monic, is_zero, leading, multiply, one, poly_divide, poly_scale,
    reduce, subtract, top_level, tower_polynomial, zero)


class Factor(Exception):
    """'A factor met at a lower level ends everything above it'."""

    def __init__(self, level, value):
        super().__init__(level, value)
        self.level = level
        self.value = value


class TooManyRemainders(Exception):
    """'more than D + 2 remainders taken in one sequence'."""


def count_remainder(taken, larger_degree):
    """The count after one more remainder; 'D the larger degree at its start'."""
    taken += 1
    if taken > larger_degree + 2:
        raise TooManyRemainders()
    return taken


def inverse_of_number(modulus, c):
    """'if h > 1 the factor h is shown at level 0'; c is not 0."""
    h = math.gcd(c, modulus)
    if h > 1:
        raise Factor(0, h)
    return pow(c, -1, modulus)


def inverse_of_element(tower, level, c):
    """The inverse in R_level of an element c that is not zero."""
    if level == 0:
        return inverse_of_number(tower.modulus, c)
    return inverse_by_sequence(tower, level, c)


def inverse_by_sequence(tower, level, c):
    """'the same sequence on m_i and c over R_(i-1), c made monic first'."""
    below = level - 1
    m = tower_polynomial(tower, level)
    # All along, f = u_f * c and g = u_g * c modulo m.
    f, u_f = m, zero(level)
    g, scale = monic_and_scale(tower, below, c)
    u_g = poly_scale(tower, below, scale, one(level))
    taken = 0
    while g != ():
        quotient, remainder = poly_divide(tower, below, f, g)
        taken = count_remainder(taken, degree(m))
        u_quotient = multiply(tower, level, reduce(tower, level, quotient), u_g)
        u_remainder = subtract(tower, level, u_f, u_quotient)
        f, u_f = g, u_g
        g, scale = monic_and_scale(tower, below, remainder)
        u_g = poly_scale(tower, below, scale, u_remainder)
    # 'If it ends in a polynomial of degree 1 or more, this is shown as a
    # factor at level i; if it ends in 1, the inverse is given.'
    if degree(f) >= 1:
        raise Factor(level, f)
    return u_f


def monic_and_scale(tower, level, f):
    """'To make monic is to multiply by the inverse of the leading coefficient.'

    Gives the monic polynomial and that inverse; zero stays, with the scale 1.
    """
    if f == ():
        return (), one(level)
    scale = inverse_of_element(tower, level, leading(f))
    return poly_scale(tower, level, scale, f), scale


def make_monic(tower, level, f):
    """The polynomial made monic if it is not zero."""
    return monic_and_scale(tower, level, f)[0]


def gcd_pairs(tower, level, a, b):
    """All pairs (f, g) of the GCD's sequence, from the first to the last.

    'make a monic if it is not zero, then b likewise; then, while the second is
    not zero, the pair (f, g) becomes (g, the remainder of f by g, made monic if
    not zero)'. One remainder is taken from each pair to the next.
    """
    larger_degree = max(degree(a), degree(b))
    f = make_monic(tower, level, a)
    g = make_monic(tower, level, b)
    pairs = [(f, g)]
    taken = 0
    while g != ():
        remainder = poly_divide(tower, level, f, g)[1]
        taken = count_remainder(taken, larger_degree)
        f, g = g, make_monic(tower, level, remainder)
        pairs.append((f, g))
    return pairs


def gcd_by_sequence(tower, level, a, b):
    """'The answer is the first'."""
    return gcd_pairs(tower, level, a, b)[-1][0]


# The calls and their answers.

def answer_of(work, *arguments):
    """The answer of a sequence: its value, the factor it met, or number 11."""
    try:
        return ("done", work(*arguments))
    except Factor as met:
        return ("factor", met.level, met.value)
    except TooManyRemainders:
        return ("refused", 11)


def inverse(tower, c):
    """Inverse of an element of R_N; 9 is 'inverse of zero'."""
    level = top_level(tower)
    if is_zero(level, c):
        return ("refused", 9)
    return answer_of(inverse_of_element, tower, level, c)


def gcd(tower, a, b):
    """Monic GCD of two polynomials in R_N[x]."""
    return answer_of(gcd_by_sequence, tower, top_level(tower), a, b)


def divide(tower, a, b):
    """Quotient and remainder in R_N[x]; 8 is 'divisor not monic, or zero'."""
    level = top_level(tower)
    if not is_monic(level, b):
        return ("refused", 8)
    return ("done", poly_divide(tower, level, a, b))


def fraction(modulus, n, e):
    """'n times the inverse of e, from 0 to p-1'; refused by 1 or by 10."""
    if not 2 <= modulus <= 2147483647:
        return ("refused", 1)
    # 'It is refused when e is not positive or shares a divisor above 1 with p.'
    if e <= 0 or math.gcd(e, modulus) > 1:
        return ("refused", 10)
    return ("done", n * pow(e, -1, modulus) % modulus)
