"""Cases of the two calls that take numbers only: fraction and work sizes."""

import itertools
import random

from second import cases
from second.cases import LEAST, MOST, four

# Fraction: p, n, e.

NUMERATORS = [LEAST, LEAST + 1, -2, -1, 0, 1, 2, MOST]
DENOMINATORS = [LEAST, -1, 0, 1, 2, 3, MOST - 1, MOST]


def fraction_figures():
    """C1 and C11 of document 01."""
    yield from [(1, 1, 1), (2, 1, 1), (2147483647, 1, 1), (2147483648, 1, 1)]
    yield from [(17, -1, 5), (7, 1, 7)]


def fraction_edges():
    """'both any signed 64-bit numbers': all three at their edges."""
    yield from itertools.product(cases.MODULI, NUMERATORS, DENOMINATORS)


def fraction_small():
    """Every small denominator, 0 and those with a common divisor too."""
    for p in range(2, 13):
        for e in range(-1, 2 * p + 1):
            for n in (-p - 1, -1, 1, p - 1):
                yield p, n, e


def fraction_common_divisor():
    """'shares a divisor above 1 with p': multiples of it, and words beside them."""
    for p, shared in [(6, 2), (6, 3), (1024, 2), (2 ** 30, 2),
                      (65537 * 32749, 65537), (65537 * 32749, 32749),
                      (2147483646, 331), (2147483647, 2147483647)]:
        for times in (1, 5, p, MOST // shared):
            for beside in (-1, 0, 1):
                yield p, -1, min(shared * times + beside, MOST)


def fraction_random():
    """Second program, seed 101: numbers of every length."""
    rng = random.Random(101)
    for _ in range(500):
        p = rng.randrange(2, 2 ** rng.randint(2, 31))
        n = rng.randrange(-2 ** 63, 2 ** 63) >> rng.randrange(63)
        e = rng.randrange(1, 2 ** 63) >> rng.randrange(63)
        yield p, n, e


# Work sizes: N, the degrees, the degrees of a and b.

POLYNOMIAL_DEGREES = [LEAST, -2, -1, 0, 1, 255, 256, MOST]


def sizes_figures():
    """C2 and 'For d = (3, 2): .. M(2) = 38, I(2) = 90' of document 01."""
    for degrees in [(3, 2), (64, 31), (64, 32), (1, 2), (2, 1), (65, 2), (2, 65)]:
        for pair in [(-1, -1), (0, 0), (2, 2), (255, 255)]:
            yield (2, four(degrees)) + pair


def sizes_polynomial_degrees():
    """'a degree outside -1 to 255', with 0 to 4 levels."""
    for degrees in cases.SMALL_DEGREES:
        for pair in itertools.product(POLYNOMIAL_DEGREES, repeat=2):
            yield (len(degrees), four(degrees)) + pair


def sizes_levels():
    """'N .. out of range': each edge of N with degrees for 0 to 4 levels."""
    for levels, used in itertools.product(cases.LEVELS, range(5)):
        yield levels, four((2,) * used), 1, 0


def sizes_degrees():
    """'the degrees out of range': each place at each edge."""
    for levels in range(5):
        for degrees in cases.degrees_put_wrong(levels):
            yield levels, degrees, 0, 3


def sizes_limit():
    """'S_N is at most 2,048': all degrees with 2,047 to 2,049, and C2's 2,016."""
    for size in (2016, 2047, 2048, 2049):
        for degrees in cases.degrees_of_size(size):
            yield len(degrees), four(degrees), 255, -1


def sizes_order():
    """2 before 5: each of its reasons with a degree outside -1 to 255."""
    wrong = [(-1, four(())), (5, (2, 2, 2, 2)), (0, four((2,))), (1, four((65,))),
             (2, four((64, 32))), (3, four((2, 2))), (2, (2, 2, 0, 2))]
    for (levels, degrees), pair in itertools.product(wrong, [(-2, 0), (0, 256)]):
        yield (levels, degrees) + pair


def sizes_random():
    """Second program, seed 102: random allowed degrees."""
    rng = random.Random(102)
    for _ in range(400):
        degrees = cases.random_degrees(rng, 2048)
        yield (len(degrees), four(degrees),
               rng.randint(-1, 255), rng.randint(-1, 255))


FRACTION = [fraction_figures, fraction_edges, fraction_small,
            fraction_common_divisor, fraction_random]
SIZES = [sizes_figures, sizes_polynomial_degrees, sizes_levels, sizes_degrees,
         sizes_limit, sizes_order, sizes_random]
