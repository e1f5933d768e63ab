"""Cases of sum and difference: p, N, the degrees, tower words, words of a and b."""

import itertools
import random

from second import cases, ring, samples, words
from second.cases import four
from second.cases_slot import (
    EXAMPLE_SLOT, SLOT_2_2, case as one_slot, degree_places, random_slot, zero_slot)
from second.cases_tower import (
    EXAMPLE_DEGREES, EXAMPLE_MODULUS, EXAMPLE_TOWER, power_words)

# Prime and composite moduli, small and at the end of the range, for N = 0 to 4.
RINGS = [(2, ()), (4, ()), (6, ()), (7, ()), (2147483647, ()),
         (2, (2,)), (4, (3,)), (6, (2,)), (2147483647, (3,)),
         (4, (2, 2)), (6, (3, 2)), (2147483647, (2, 2)),
         (2, (2, 2, 2)), (6, (2, 2, 2)), (4, (2, 2, 2, 2)), (2147483647, (2, 2, 2, 2))]


def case(p, degrees, a, b, tower=None):
    """A case over the tower of powers, where no other is given."""
    return one_slot(p, degrees, a, tower) + (b,)


def sum_example():
    """001, Example 2: its slot with itself, with zero, and with random ones."""
    rng = random.Random(401)
    others = [EXAMPLE_SLOT, zero_slot(EXAMPLE_DEGREES, 1), zero_slot(EXAMPLE_DEGREES, 3)]
    others += [random_slot(rng, EXAMPLE_MODULUS, EXAMPLE_DEGREES, degree, 3)
               for degree in (0, 1, 2)]
    for other in others:
        for a, b in [(EXAMPLE_SLOT, other), (other, EXAMPLE_SLOT)]:
            yield case(EXAMPLE_MODULUS, EXAMPLE_DEGREES, a, b, EXAMPLE_TOWER)


def sum_tiny():
    """Every pair of polynomials of two coefficients over the rings of two to four."""
    for p in (2, 3, 4):
        values = samples.all_polynomials(samples.power_tower(p, ()), 0, 1)
        for f, g in itertools.product(values, repeat=2):
            yield case(p, (), words.slot_to_words((), f, 2), words.shortest_slot((), g))


def sum_degrees():
    """'max(deg a, deg b) + 1 coefficients in a': every two degrees, a of each room."""
    rng = random.Random(402)
    for p, degrees in [(4, ()), (6, (2,)), (2147483647, (2, 2))]:
        for degree_a, degree_b in itertools.product((-1, 0, 1, 2, 3), repeat=2):
            for room_a in range(max(degree_a + 1, 1), 6):
                room_b = max(degree_b + 1, 1) + rng.randrange(2)
                yield case(p, degrees,
                           random_slot(rng, p, degrees, degree_a, room_a),
                           random_slot(rng, p, degrees, degree_b, room_b))


def sum_cancelling():
    """Leading coefficients cancel: the degree falls by one, by many and to -1."""
    rng = random.Random(403)
    for p, degrees in RINGS:
        tower = samples.power_tower(p, degrees)
        level = len(degrees)
        f = cases.polynomial_of_degree(rng, tower, 4)
        for kept in range(6):
            lower = samples.random_polynomial(rng, tower, level, kept - 1) if kept else ()
            g = ring.poly_add(tower, level, lower, (ring.zero(level),) * kept + f[kept:])
            for other in (g, ring.poly_negate(tower, level, g)):
                yield case(p, degrees, words.slot_to_words(degrees, f, 5),
                           words.shortest_slot(degrees, other))


def sum_inner_cancelling():
    """Second program, seed 404: one coefficient falls, the others stay."""
    rng = random.Random(404)
    for p, degrees in RINGS[5:]:
        tower = samples.power_tower(p, degrees)
        level = len(degrees)
        for place in range(3):
            f = cases.polynomial_of_degree(rng, tower, 2)
            g = (ring.zero(level),) * place + f[place:place + 1]
            for other in (g, ring.poly_negate(tower, level, g)):
                b = ring.without_trailing_zeros(level, other)
                yield case(p, degrees, words.slot_to_words(degrees, f, 3),
                           words.shortest_slot(degrees, b))


def sum_with_zero():
    """a zero, b zero, both zero, in slots of one and more coefficients; never 6."""
    rng = random.Random(405)
    for p, degrees in RINGS:
        right = random_slot(rng, p, degrees, 1, 2)
        for room in (1, 2, 3):
            zero = zero_slot(degrees, room)
            yield case(p, degrees, right, zero)
            yield case(p, degrees, zero, right)
            yield case(p, degrees, zero_slot(degrees, 1), zero)


def sum_near_p():
    """Residues at both ends of their range: every pair, p at its own ends."""
    for p in (2, 3, 2147483646, 2147483647):
        ends = sorted({0, 1, p // 2, p // 2 + 1, p - 2, p - 1} - {p})
        for first, second in itertools.product(ends, repeat=2):
            a, b = [min(first, 1) - 1, first], [min(second, 1) - 1, second]
            yield case(p, (), a, b)


def sum_moduli():
    """C1 of document 01: each edge of p, with 0 to 4 levels."""
    for p, degrees in itertools.product(cases.MODULI, cases.SMALL_DEGREES):
        yield case(p, degrees, zero_slot(degrees, 2), zero_slot(degrees, 1))


def sum_levels():
    """'N .. out of range': each edge of N with right words of 0 to 4 levels."""
    for levels, degrees in itertools.product(cases.LEVELS, [(), (2,), (2, 2), (2, 2, 2)]):
        zero = zero_slot(degrees, 1)
        yield 7, levels, four(degrees), power_words(degrees), zero, zero


def sum_wrong_degrees():
    """'the degrees out of range': each place at each edge."""
    for levels in range(3):
        right = (2,) * levels
        for degrees in cases.degrees_put_wrong(levels):
            zero = zero_slot(right, 1)
            yield 7, levels, degrees, power_words(right), zero, zero


def sum_tower():
    """'wrong length or form, or not monic': each word of 001's raised by one."""
    towers = [EXAMPLE_TOWER[:k] + [EXAMPLE_TOWER[k] + 1] + EXAMPLE_TOWER[k + 1:]
              for k in range(len(EXAMPLE_TOWER))]
    for tower in towers:
        yield case(EXAMPLE_MODULUS, EXAMPLE_DEGREES, EXAMPLE_SLOT, EXAMPLE_SLOT, tower)


def sum_other_lengths():
    """Tower, a and b in turn: empty, one word short, one long, twice as long."""
    for degrees in cases.SMALL_DEGREES:
        right = zero_slot(degrees, 1)
        for tower in cases.other_lengths(power_words(degrees)):
            yield case(5, degrees, right, right, tower)
        for other in cases.other_lengths(right):
            yield case(5, degrees, other, right)
            yield case(5, degrees, right, other)


def sum_lengths():
    """'1 + k * S_N words': lengths up to two coefficients and more, of a and of b."""
    for degrees in [(), (2,), (2, 2)]:
        size = words.sizes(degrees)[-1]
        longest = zero_slot(degrees, 3)
        for length in range(2 * size + 3):
            yield case(3, degrees, longest[:length], zero_slot(degrees, 1))
            yield case(3, degrees, zero_slot(degrees, 2), longest[:length])


def sum_every_word():
    """Second program, seed 406: each word of small slots damaged, in a and in b."""
    rng = random.Random(406)
    for p, degrees, degree, count in [
            (7, (), 1, 2), (4, (2,), 0, 2), (2147483647, (2,), 1, 2), (2, (2, 2), 0, 1)]:
        a = random_slot(rng, p, degrees, degree, count)
        b = random_slot(rng, p, degrees, degree, count)
        for damaged in cases.each_word_replaced(a, p):
            yield case(p, degrees, damaged, b)
        for damaged in cases.each_word_replaced(b, p):
            yield case(p, degrees, a, damaged)


def sum_first_bad_word():
    """A word from one place on to the end out of range, in a, in b and in both."""
    rng = random.Random(407)
    for p, degrees in [(5, ()), (6, (2,)), (4, (2, 2))]:
        a, b = (random_slot(rng, p, degrees, 2, 3) for _ in range(2))
        for place in range(0, len(a), 2):
            bad_a = a[:place] + [p] * (len(a) - place)
            bad_b = b[:place] + [-2] * (len(b) - place)
            for pair in [(bad_a, b), (a, bad_b), (bad_a, bad_b)]:
                yield case(p, degrees, *pair)


def sum_leavings():
    """'leaving old words behind it': a degree word of -1 before them, by level."""
    rng = random.Random(408)
    for degrees in [(), (2,), (3,), (2, 2), (2, 2, 2)]:
        a, b = (random_slot(rng, 7, degrees, 1, 2) for _ in range(2))
        for place in degree_places(degrees, 2):
            yield case(7, degrees, a[:place] + [-1] + a[place + 1:], b)
            yield case(7, degrees, a, b[:place] + [-1] + b[place + 1:])


def sum_order():
    """1 before 2 before .. before 6, each with the faults of later numbers."""
    towers = [power_words((2, 2)), [0] * 14]
    long = words.slot_to_words((2, 2), (((1,),),) * 3, 3)
    slots = [SLOT_2_2, long, SLOT_2_2[:-1], [7] * 15, [7] * 16]
    for tower, a, b in itertools.product(towers, slots, slots):
        for levels, degrees in [(2, four((2, 2))), (2, four((2, 1)))]:
            for p in (1, 2):
                yield p, levels, degrees, tower, a, b


def sum_room():
    """6, and one coefficient less or more; 5 in either slot comes before it."""
    rng = random.Random(409)
    for p, degrees in RINGS:
        for room in (1, 2, 3, 4):
            a = random_slot(rng, p, degrees, rng.randint(-1, room - 1), room)
            b = random_slot(rng, p, degrees, 2, 3)
            yield case(p, degrees, a, b)
            yield case(p, degrees, a[:-1] + [p], b)
            yield case(p, degrees, a, b[:-1] + [-1])


def sum_largest():
    """'at most 65,536 words' and 'k from 1 to 256': at the limits and one above."""
    rng = random.Random(410)
    for count in (255, 256, 257):
        for degree in (0, 255):
            a, b = zero_slot((), count), random_slot(rng, 2147483647, (), degree, 256)
            yield case(2147483647, (), a, b)
            yield case(2147483647, (), b, a)
    one, three = zero_slot((3, 64), 1), random_slot(rng, 2, (3, 64), 2, 3)
    yield case(2, (3, 64), random_slot(rng, 2, (3, 64), 254, 255), three)
    yield case(2, (3, 64), zero_slot((3, 64), 256), one)
    yield case(2, (3, 64), one, zero_slot((3, 64), 256))


def sum_random():
    """Second program, seed 411: random towers and slots, then one word changed."""
    rng = random.Random(411)
    for _ in range(250):
        p = rng.choice(samples.MODULI + [rng.randrange(2, 2 ** 31)])
        degrees = cases.random_degrees(rng, 20)
        tower = words.tower_to_words(cases.large_tower(rng, p, degrees))
        a, b = (random_slot(rng, p, degrees, rng.randint(-1, room - 1), room)
                for room in (rng.randint(1, 5), rng.randint(1, 5)))
        yield case(p, degrees, a, b, tower)
        if rng.random() < 0.3:
            yield case(p, degrees, cases.one_word_replaced(rng, a, p), b, tower)
            yield case(p, degrees, a, cases.one_word_replaced(rng, b, p), tower)


SUM = [sum_example, sum_tiny, sum_degrees, sum_cancelling, sum_inner_cancelling,
       sum_with_zero, sum_near_p, sum_moduli, sum_levels, sum_wrong_degrees,
       sum_tower, sum_other_lengths, sum_lengths, sum_every_word,
       sum_first_bad_word, sum_leavings, sum_order, sum_room, sum_largest,
       sum_random]
