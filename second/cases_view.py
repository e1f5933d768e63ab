"""Cases of the leading view: p, N, the degrees, tower words, words of a and b.

Where a number is to come, neither a nor b is zero, so that a view which missed the
number would show words. The cases of sums that are so are taken too.
"""

import itertools
import random

from second import cases, cases_sum, samples, words
from second.cases import four
from second.cases_slot import random_slot, zero_slot
from second.cases_sum import RINGS, case
from second.cases_tower import power_words


def binary_slot(degrees, degree, count):
    """A polynomial of this degree over 0 and 1, whose words are right for every p."""
    rng = random.Random(0)
    return random_slot(rng, 2, degrees, degree, count)


def view_degrees():
    """'whichever has the higher degree, of a when they are equal': every two degrees."""
    rng = random.Random(751)
    for p, degrees in RINGS:
        for degree_a, degree_b in itertools.product((-1, 0, 1, 2), repeat=2):
            room_a = max(degree_a + 1, 1) + rng.randrange(3)
            room_b = max(degree_b + 1, 1) + rng.randrange(3)
            yield case(p, degrees,
                       random_slot(rng, p, degrees, degree_a, room_a),
                       random_slot(rng, p, degrees, degree_b, room_b))


def view_equal():
    """Equal degrees: slots of unlike lengths, and the same words twice."""
    rng = random.Random(752)
    for p, degrees in RINGS:
        for degree in (0, 1, 3):
            a, b = (random_slot(rng, p, degrees, degree, degree + 1 + more)
                    for more in rng.sample((0, 1, 2), 2))
            yield case(p, degrees, a, b)
            yield case(p, degrees, b, a)
            yield case(p, degrees, a, list(a))


def view_zero():
    """One zero, and both: in slots of one and of more coefficients."""
    rng = random.Random(753)
    for p, degrees in RINGS:
        for room in (1, 2, 3):
            other = random_slot(rng, p, degrees, room - 1, room + 1)
            yield case(p, degrees, zero_slot(degrees, room), other)
            yield case(p, degrees, other, zero_slot(degrees, room))
            yield case(p, degrees, zero_slot(degrees, room), zero_slot(degrees, 4 - room))


def view_one_word():
    """A leading coefficient with one word of R_0 that is not zero, each in turn."""
    for p, degrees in [(2, (2,)), (6, (3,)), (2147483647, (2, 2)), (2, (2, 2, 2))]:
        tower, level = samples.power_tower(p, degrees), len(degrees)
        for basis in basis_elements(tower, level):
            f, g = (basis,), (basis, basis)
            for first, second in [(f, g), (g, f), (g, g)]:
                yield case(p, degrees, words.slot_to_words(degrees, first, 3),
                           words.shortest_slot(degrees, second))


def basis_elements(tower, level):
    """The products of powers of the z_i below their degrees, and p - 1 times them."""
    if level == 0:
        return [1, tower.modulus - 1]
    below = basis_elements(tower, level - 1)
    zero = 0 if level == 1 else ()
    return [(zero,) * place + (value,)
            for place in range(len(tower.polynomials[level - 1]) - 1) for value in below]


def view_moduli():
    """C1 of document 01: each edge of p, with 0 to 4 levels."""
    for p, degrees in itertools.product(cases.MODULI, cases.SMALL_DEGREES):
        yield case(p, degrees, binary_slot(degrees, 1, 2), binary_slot(degrees, 0, 1))


def view_levels():
    """'N .. out of range': each edge of N with right words of 0 to 4 levels."""
    for levels, degrees in itertools.product(cases.LEVELS, [(), (2,), (2, 2), (2, 2, 2)]):
        one = binary_slot(degrees, 0, 1)
        yield 7, levels, four(degrees), power_words(degrees), one, one


def view_wrong_degrees():
    """'the degrees out of range': each place at each edge."""
    for levels in range(3):
        right = (2,) * levels
        for degrees in cases.degrees_put_wrong(levels):
            one = binary_slot(right, 0, 1)
            yield 7, levels, degrees, power_words(right), one, one


def view_other_lengths():
    """Tower, a and b in turn: empty, one word short, one long, twice as long."""
    for degrees in cases.SMALL_DEGREES:
        right = binary_slot(degrees, 0, 1)
        for tower in cases.other_lengths(power_words(degrees)):
            yield case(5, degrees, right, right, tower)
        for other in cases.other_lengths(right):
            yield case(5, degrees, other, right)
            yield case(5, degrees, right, other)


def view_lengths():
    """'1 + k * S_N words': lengths up to two coefficients and more, of a and of b."""
    for degrees in [(), (2,), (2, 2)]:
        size = words.sizes(degrees)[-1]
        longest = binary_slot(degrees, 0, 3)
        for length in range(2 * size + 3):
            yield case(3, degrees, longest[:length], binary_slot(degrees, 0, 1))
            yield case(3, degrees, binary_slot(degrees, 0, 2), longest[:length])


def view_largest():
    """'k from 1 to 256', 'at most 65,536 words': the last coefficient of long slots."""
    rng = random.Random(754)
    for count in (255, 256, 257):
        long, short = (random_slot(rng, 2147483647, (), degree, room)
                       for degree, room in [(count - 1, count), (254, 256)])
        yield case(2147483647, (), long, short)
        yield case(2147483647, (), short, long)
    degrees = (64, 31)
    yield case(2, degrees, binary_slot(degrees, 0, 1), random_slot(rng, 2, degrees, 1, 2))


VIEW = [view_degrees, view_equal, view_zero, view_one_word, view_moduli, view_levels,
        view_wrong_degrees, view_other_lengths, view_lengths, view_largest,
        cases_sum.sum_example, cases_sum.sum_degrees, cases_sum.sum_tower,
        cases_sum.sum_every_word, cases_sum.sum_first_bad_word, cases_sum.sum_leavings,
        cases_sum.sum_order, cases_sum.sum_random]
