"""Groups that inverse and GCD share, each by way of a case that is right.

right(rng, p, degrees, tower=None) gives a case of one call over the tower of
powers, or over another, that no number from 1 to 10 refuses. Its first four
arguments are p, N, the degrees and the tower's words.
"""

import itertools
import random

from second import cases, words
from second.cases import four
from second.cases_both import contents, replaced
from second.cases_slot import random_slot
from second.cases_tower import EXAMPLE_DEGREES, EXAMPLE_MODULUS, EXAMPLE_TOWER

TOWER = 3

# Moduli and degrees for towers in which each m_i is a power of z_i.
POWERS = [(2, (2,)), (5, (4,)), (4, (3,)), (2, (3, 2)), (6, (2, 2)), (3, (2, 2, 2)),
          (2, (2, 2, 2, 2)), (2147483647, (3, 2))]


def element_leavings(rng, p, degrees):
    """An element's words before the call: rubbish, zeros, or an element."""
    size = words.sizes(degrees)[-1]
    return rng.choice([cases.rubbish(rng, size), [0] * size,
                       random_slot(rng, p, degrees, 0, 1)[1:]])


# 1 to 3.

def edge_moduli(right, seed):
    """C1 of document 01: each edge of p, with 0 to 4 levels."""
    rng = random.Random(seed)
    for p, degrees in itertools.product(cases.MODULI, cases.SMALL_DEGREES):
        yield replaced(right(rng, 2, degrees), 0, p)


def edge_levels(right, seed):
    """'N .. out of range': each edge of N with right words of 0 to 3 levels."""
    rng = random.Random(seed)
    for levels, degrees in itertools.product(cases.LEVELS, [(), (2,), (2, 2), (2, 2, 2)]):
        yield replaced(right(rng, 7, degrees), 1, levels)


def edge_degrees(right, seed):
    """'the degrees out of range': each place at each edge."""
    rng = random.Random(seed)
    for levels in range(3):
        for degrees in cases.degrees_put_wrong(levels):
            yield replaced(right(rng, 7, (2,) * levels), 2, degrees)


def damaged_towers(right, seed):
    """'wrong length or form, or not monic': each word of 001's raised by one."""
    rng = random.Random(seed)
    for place, word in enumerate(EXAMPLE_TOWER):
        tower = EXAMPLE_TOWER[:place] + [word + 1] + EXAMPLE_TOWER[place + 1:]
        yield right(rng, EXAMPLE_MODULUS, EXAMPLE_DEGREES, tower)


# Lengths, contents and the order.

def lengths(right, places, seed):
    """3 and 4: each of these lists empty, short, long, and twice as long."""
    rng = random.Random(seed)
    for degrees in [(), (2,), (3, 2), (2, 2, 2)]:
        whole = right(rng, 5, degrees)
        for place in (TOWER, *places):
            for other in cases.other_lengths(whole[place]):
                yield replaced(whole, place, other)


def damaged_inputs(right, places, seed):
    """5: each word of small inputs in turn by every other word to put for it."""
    rng = random.Random(seed)
    for p, degrees in [(6, ()), (2147483647, ()), (4, (2,)), (2, (2, 2))]:
        whole = right(rng, p, degrees)
        for place in places:
            for other in cases.each_word_replaced(whole[place], p):
                yield replaced(whole, place, other)


def work_lengths(right, needed, rings, seed):
    """7: a work store of none, one word less than needed, as many, and more."""
    rng = random.Random(seed)
    for p, degrees in rings:
        whole = right(rng, p, degrees)
        least = needed(degrees, whole)
        for length in sorted({0, max(least - 1, 0), least, least + 1, least + 9}):
            yield whole[:-1] + (cases.rubbish(rng, length),)


def any_contents(right, places, seed):
    """'Contents of answer slots, factor buffer and work store are not tested.'"""
    rng = random.Random(seed)
    for p, degrees in [(6, ()), (2, (2,)), (2147483647, (2,)), (4, (2, 2)),
                       (3, (2, 2, 2))]:
        whole = right(rng, p, degrees)
        for place in places:
            for other in contents(rng, p, whole[place] or [5]):
                yield replaced(whole, place, other)


def orders(right, faults, seed):
    """Each fault first, and later ones by a coin; over d_1 = 2 modulo 4."""
    rng = random.Random(seed)
    for first, _ in itertools.product(range(len(faults)), range(25)):
        later = [fault for fault in faults[first + 1:] if rng.random() < 0.5]
        arguments = right(rng, 4, (2,))
        for fault in reversed([faults[first]] + later):
            arguments = fault(rng, arguments)
        yield arguments


def wrong_length_at(places):
    """4: one of the lists at these places a word short or long, or empty."""
    def fault(rng, arguments):
        place = rng.choice(places)
        old = arguments[place]
        return replaced(arguments, place, rng.choice([old[:-1], old + [0], []]))
    return fault


def wrong_form_at(places):
    """5: the last word of one of the inputs no residue."""
    def fault(rng, arguments):
        place = rng.choice(places)
        return replaced(arguments, place,
                        arguments[place][:-1] + [rng.choice([-1, cases.MOST])])
    return fault


def short_work(rng, arguments):
    """7: no work store, or one of 19 words, fewer than I(1)."""
    return arguments[:-1] + (arguments[-1][:rng.choice([0, 19])],)


def on_tower(p, degrees, tower):
    """The first four arguments of a case."""
    return p, len(degrees), four(degrees), tower
