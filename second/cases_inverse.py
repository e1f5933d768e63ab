"""Cases of the inverse: p, N, the degrees, tower words, words of the element c, of
the answer r and of the factor buffer, work words."""

import functools
import itertools
import random

from second import cases, cases_sequences, ring, samples, splits, words
from second.cases_both import (
    HIGH_TOWERS, constant, replaced, wrong_degrees, wrong_modulus, wrong_tower)
from second.cases_sequences import element_leavings, on_tower
from second.cases_slot import degree_places, random_slot
from second.cases_sum import RINGS
from second.cases_tower import power_words
from second.figures import T7
from second.ring import Tower

# The place of each list in a case.
C, R, FACTOR, WORK = range(4, 8)


def case(rng, p, degrees, c, more=0, tower=None):
    """The words of c, an answer and a buffer of S_N words, I(N) work words and more."""
    tower = power_words(degrees) if tower is None else tower
    work = cases.rubbish(rng, words.inverse_work(degrees) + more)
    return on_tower(p, degrees, tower) + (
        c, element_leavings(rng, p, degrees), element_leavings(rng, p, degrees), work)


def of_value(rng, tower, c, more=0):
    """The inverse of an element of R_N."""
    degrees = ring.degrees(tower)
    return case(rng, tower.modulus, degrees,
                words.element_to_words(degrees, len(degrees), c), more,
                words.tower_to_words(tower))


def right(rng, p, degrees, tower=None):
    """A random element that is not zero; some show a factor."""
    c = random_slot(rng, p, degrees, 0, 1)[1:]
    return case(rng, p, degrees, c, rng.randrange(3), tower)


# What is given.

def inverse_figures():
    """C5, C6, C7 and C12 of document 01, the work store exact and longer."""
    rng = random.Random(801)
    four = Tower(4, ((1, 1, 1),))
    for more in (0, 1, 7):
        for tower, values in [(Tower(6, ()), (0, 1, 2, 3, 4, 5)),
                              (T7, ((6, 1), (3, 1), (4, 1), (), (3,), (0, 1))),
                              (four, ((1, 2), (2,), (3,), (0, 1), (2, 2)))]:
            for c in values:
                yield of_value(rng, tower, c, more)


def inverse_every():
    """Every element of small fields and other rings of N = 0 to 3."""
    rng = random.Random(802)
    for tower in samples.FIELDS + samples.NOT_FIELDS:
        for c in samples.all_elements(tower, ring.top_level(tower)):
            yield of_value(rng, tower, c, rng.randrange(2))


def inverse_fields():
    """Fields of N = 0 to 4, also with the largest p: always done."""
    rng = random.Random(814)
    for p, levels in itertools.product((3, 7, 2147483647), range(5)):
        tower = samples.field_tower(p, levels)
        for _ in range(6):
            c = cases.element_not_zero(rng, tower)
            yield of_value(rng, tower, c, rng.randrange(2))


def inverse_numbers():
    """N = 0, p at both ends: residues at theirs, divisors of p and their multiples."""
    rng = random.Random(803)
    for p in (2, 3, 2147483645, 2147483646, 2147483647):
        near = {0, 1, 2, 3, p // 3, p // 2, p // 2 + 1, p - 2, p - 1}
        divisors = {h * k % p for h in (3, 5, 7, 11, 31, 151, 331) for k in (1, 2, 9)}
        for c in sorted(c for c in near | divisors if c < p):
            yield of_value(rng, Tower(p, ()), c, rng.randrange(3))


def inverse_split():
    """Second program, seed 804: towers that fall apart, elements by remainders."""
    rng = random.Random(804)
    for p, degrees in splits.RINGS:
        split = splits.split_tower(rng, p, degrees)
        top = len(degrees)
        for level in range(1, top + 1):
            for value in splits.all_joined(rng, split, level):
                yield of_value(rng, split.tower, constant(top, level, value))
                if level < top:
                    led = splits.led_by(rng, split.tower, top, level, value)
                    yield of_value(rng, split.tower, led)


def inverse_shown():
    """Factors at every level 0 to N, met at the leading coefficient."""
    rng = random.Random(805)
    for p, degrees in splits.RINGS:
        for _ in range(2):
            split = splits.split_tower(rng, p, degrees)
            for c in splits.all_showing(rng, split):
                yield of_value(rng, split.tower, c, rng.randrange(3))


def inverse_shown_later():
    """Factors at every level below N, met at the first remainder."""
    rng = random.Random(806)
    for (p, degrees), _ in itertools.product(splits.RINGS, range(2)):
        for level in range(len(degrees)):
            found = splits.showing_later(rng, p, degrees, level)
            if found:
                yield of_value(rng, *found)


def inverse_nilpotent():
    """Towers of powers: z_i to each power, times a unit, and 1 more than that."""
    rng = random.Random(807)
    for p, degrees in cases_sequences.POWERS:
        tower = samples.power_tower(p, degrees)
        top = len(degrees)
        for level, d in enumerate(degrees, 1):
            for power in range(1, d):
                z = ring.poly_shift(level - 1, (ring.one(level - 1),), power)
                z = constant(top, level, z)
                unit = ring.add(tower, top, ring.one(top), z)
                other = samples.random_element(rng, tower, top)
                yield of_value(rng, tower, z)
                yield of_value(rng, tower, unit)
                yield of_value(rng, tower, ring.multiply(tower, top, unit, unit))
                yield of_value(rng, tower, ring.multiply(tower, top, z, other))


def inverse_common():
    """m_N and c with a factor in common that neither of them is, over fields."""
    rng = random.Random(808)
    for below, _ in itertools.product(samples.FIELDS, range(3)):
        level = ring.top_level(below)
        common, of_m, of_c = (samples.random_monic(rng, below, level, d)
                              for d in (rng.randint(1, 2), 2, 1))
        m, c = (ring.poly_multiply(below, level, common, f) for f in (of_m, of_c))
        tower = Tower(below.modulus, below.polynomials + (m,))
        yield of_value(rng, tower, c)
        yield of_value(rng, tower, ring.add(tower, level + 1, c, ring.one(level + 1)))


def inverse_largest():
    """Every residue p - 1, with N = 1 and 2, and degrees up to 64."""
    rng = random.Random(809)
    for p in (2, 2147483646, 2147483647):
        for d in (2, 3, 16, 64):
            tower = Tower(p, ((p - 1,) * d + (1,),))
            for count in (1, 2, d - 1, d):
                yield of_value(rng, tower, (p - 1,) * count)
        tower = Tower(p, ((p - 1, p - 1, 1), ((p - 1, p - 1),) * 3 + ((1,),)))
        yield of_value(rng, tower, ((p - 1, p - 1),) * 3)


def inverse_high_towers():
    """Second program, seed 810: four levels, and elements of a high degree."""
    rng = random.Random(810)
    for p, degrees in HIGH_TOWERS:
        tower = samples.random_tower(rng, p, degrees)
        for _ in range(3):
            yield of_value(rng, tower, cases.element_not_zero(rng, tower))
    degrees = (64, 31)  # S_2 = 2,016.
    for c in [((), (1,)), ((1,), (0, 1)), ((0,) * 63 + (1,),)]:
        yield of_value(rng, samples.power_tower(2, degrees), c, 3)


def inverse_random():
    """Second program, seed 811: random towers, about half of their m_i products."""
    rng = random.Random(811)
    for _ in range(300):
        p = rng.choice(samples.MODULI + [rng.randrange(2, 2 ** 31)])
        tower = samples.random_tower(rng, p, cases.random_degrees(rng, 30))
        c = cases.element_not_zero(rng, tower)
        yield of_value(rng, tower, c, rng.choice((0, 0, 1, 4)))


# What is refused.

def inverse_zero():
    """9: zero over every ring, but 7 where the work store is short."""
    rng = random.Random(812)
    for p, degrees in RINGS:
        whole = case(rng, p, degrees, words.zero_words(degrees, len(degrees)))
        yield whole
        yield replaced(whole, WORK, whole[WORK] + [4])
        yield replaced(whole, WORK, whole[WORK][:-1])


def inverse_leavings():
    """'leaving old words behind it': a degree word of -1 before them, by level."""
    rng = random.Random(813)
    for degrees in [(2,), (3, 2), (2, 2, 2), (2, 2, 2, 2)]:
        whole = right(rng, 7, degrees)
        for place in degree_places(degrees[:-1], degrees[-1]):
            c = whole[C]
            yield replaced(whole, C, c[:place] + [-1] + c[place + 1:])


def zero_element(rng, arguments):
    """9: the zero of R_1."""
    return replaced(arguments, C, [-1, 0, 0])


FAULTS = [wrong_modulus, wrong_degrees, wrong_tower,
          cases_sequences.wrong_length_at([C, R, FACTOR]),
          cases_sequences.wrong_form_at([C]), cases_sequences.short_work, zero_element]


def needed_work(degrees, arguments):
    """I(N)."""
    return words.inverse_work(degrees)


def shared(group, *arguments):
    """A group of cases_sequences, of this call."""
    return functools.partial(group, right, *arguments)


INVERSE = [
    inverse_figures, inverse_every, inverse_fields, inverse_numbers, inverse_split,
    inverse_shown, inverse_shown_later, inverse_nilpotent, inverse_common,
    inverse_largest, inverse_high_towers, inverse_random, inverse_zero,
    inverse_leavings,
    shared(cases_sequences.edge_moduli, 821),
    shared(cases_sequences.edge_levels, 822),
    shared(cases_sequences.edge_degrees, 823),
    shared(cases_sequences.damaged_towers, 824),
    shared(cases_sequences.lengths, [C, R, FACTOR], 825),
    shared(cases_sequences.damaged_inputs, [C], 826),
    shared(cases_sequences.work_lengths, needed_work, RINGS, 827),
    shared(cases_sequences.any_contents, [R, FACTOR, WORK], 828),
    shared(cases_sequences.orders, FAULTS, 829)]
