"""Cases that product and division share, and what their own cases are made of.

A case is p, N, the degrees, tower words, words of a, of b and of the answer slot,
work words. Here a right b is monic and the answer slot has room for the product,
so that what is right for one call is right for the other.
"""

import itertools
import random

from second import cases, ring, samples, words
from second.cases import LEAST, MOST, four
from second.cases_slot import case as one_slot, degree_places, random_slot, zero_slot
from second.cases_sum import RINGS
from second.cases_tower import EXAMPLE_DEGREES, EXAMPLE_MODULUS, EXAMPLE_TOWER

# The place of each list in a case.
TOWER, A, B, ANSWER, WORK = range(3, 8)

# x + z_2 + 1 over 001's Example 2.
EXAMPLE_DIVISOR = [1, 1, 0, 1, 0, 0, 0, 1, 0, 0, 0, 0, 1, 0, 0, -1, 0, 0, 0]

# Degrees of four levels, and high ones.
HIGH_TOWERS = [(4, (2, 2, 2, 2)), (6, (2, 3, 2, 2)), (7, (2, 2, 2, 2)), (3, (4, 3, 3)),
               (2147483647, (20,)), (2, (2, 20)), (2, (64,))]


def case(rng, p, degrees, a, b, room, more=0, tower=None):
    """An answer slot of so many coefficients, M(N) work words and some more."""
    work = cases.rubbish(rng, words.product_work(degrees) + more)
    return one_slot(p, degrees, a, tower) + (b, leavings(rng, p, degrees, room), work)


def leavings(rng, p, degrees, room):
    """An answer slot before the call: rubbish, or a polynomial of full degree."""
    if rng.random() < 0.5:
        return random_slot(rng, p, degrees, room - 1, room)
    return cases.rubbish(rng, 1 + room * words.sizes(degrees)[-1])


def of_values(room_needed, rng, tower, f, g, spare=0, more=0):
    """f and g in slots, the answer slot with spare coefficients over its need."""
    degrees = ring.degrees(tower)
    room = room_needed(ring.degree(f), ring.degree(g)) + spare
    return case(rng, tower.modulus, degrees, slot_of(rng, degrees, f),
                slot_of(rng, degrees, g), room, more, words.tower_to_words(tower))


def slot_of(rng, degrees, f):
    """f in its shortest slot, or in one of two coefficients more."""
    return words.slot_to_words(degrees, f, max(len(f), 1) + rng.choice((0, 0, 0, 0, 2)))


def constant(level, below, value):
    """An element of a level below as an element of R_level."""
    return value if level == below else (constant(level - 1, below, value),)


def monic_slot(rng, p, degrees, degree, room):
    """A random monic polynomial of this degree in a slot of so many coefficients."""
    tower = samples.power_tower(p, degrees)
    f = samples.random_monic(rng, tower, len(degrees), degree)
    return words.slot_to_words(degrees, f, room)


def one_in_slot(degrees, room):
    """The polynomial 1 in a slot of so many coefficients."""
    return words.slot_to_words(degrees, (ring.one(len(degrees)),), room)


def right(rng, p, degrees, tower=None):
    """A case of degrees 2 and 1 that both calls do, for a zero b still with room."""
    return case(rng, p, degrees, random_slot(rng, p, degrees, 2, 4),
                monic_slot(rng, p, degrees, 1, 2), 4, rng.randrange(3), tower)


def replaced(arguments, place, other):
    """The case with another argument at a place."""
    return arguments[:place] + (other,) + arguments[place + 1:]


# Towers.

def both_moduli():
    """C1 of document 01: each edge of p, with 0 to 4 levels."""
    rng = random.Random(501)
    for p, degrees in itertools.product(cases.MODULI, cases.SMALL_DEGREES):
        one = one_in_slot(degrees, 1)
        yield replaced(case(rng, 2, degrees, one, one, 1), 0, p)


def both_levels():
    """'N .. out of range': each edge of N with right words of 0 to 3 levels."""
    rng = random.Random(502)
    for levels, degrees in itertools.product(cases.LEVELS, [(), (2,), (2, 2), (2, 2, 2)]):
        one = one_in_slot(degrees, 1)
        yield replaced(case(rng, 7, degrees, one, one, 1), 1, levels)


def both_wrong_degrees():
    """'the degrees out of range': each place at each edge."""
    rng = random.Random(503)
    for levels in range(3):
        one = one_in_slot((2,) * levels, 1)
        for degrees in cases.degrees_put_wrong(levels):
            yield replaced(case(rng, 7, (2,) * levels, one, one, 1), 2, degrees)


def both_tower():
    """'wrong length or form, or not monic': each word of 001's raised by one."""
    rng = random.Random(504)
    for place, word in enumerate(EXAMPLE_TOWER):
        tower = EXAMPLE_TOWER[:place] + [word + 1] + EXAMPLE_TOWER[place + 1:]
        yield right(rng, EXAMPLE_MODULUS, EXAMPLE_DEGREES, tower)


# Lengths and form.

def both_other_lengths():
    """Every list but the work store: empty, short, long, and twice as long."""
    rng = random.Random(505)
    for degrees in [(), (2,), (3, 2), (2, 2, 2)]:
        one = one_in_slot(degrees, 1)
        for place in (TOWER, A, B, ANSWER):
            whole = case(rng, 5, degrees, one, one, 1)
            for other in cases.other_lengths(whole[place]):
                yield replaced(whole, place, other)


def both_lengths():
    """'1 + k * S_N words': each slot of each length up to three coefficients."""
    rng = random.Random(506)
    for degrees in [(), (2,), (2, 2)]:
        longest = one_in_slot(degrees, 3)
        for place, length in itertools.product((A, B, ANSWER), range(len(longest))):
            whole = case(rng, 3, degrees, longest, longest, 3)
            yield replaced(whole, place, whole[place][:length])


def both_every_word():
    """Each word of small slots damaged, in a and in b."""
    rng = random.Random(507)
    for p, degrees, degree, room in [(6, (), 1, 2), (2147483647, (), 0, 1),
                                     (4, (2,), 0, 1), (2, (2, 2), 0, 1)]:
        a = random_slot(rng, p, degrees, degree, room)
        b = monic_slot(rng, p, degrees, degree, room)
        for place, slot in [(A, a), (B, b)]:
            for other in cases.each_word_replaced(slot, p):
                whole = case(rng, p, degrees, a, b, 2 * degree + 1)
                yield replaced(whole, place, other)


def both_leavings():
    """'leaving old words behind it': a degree word of -1 before them, by level."""
    rng = random.Random(508)
    for degrees in [(), (2,), (3, 2), (2, 2, 2)]:
        whole = right(rng, 7, degrees)
        for slot_place, at in itertools.product((A, B), degree_places(degrees, 2)):
            slot = whole[slot_place]
            yield replaced(whole, slot_place, slot[:at] + [-1] + slot[at + 1:])


# The faults of the numbers 1 to 8, each put into a case that is right over d_1 = 2.

def wrong_modulus(rng, arguments):
    """1: p below or above its range."""
    return replaced(arguments, 0, rng.choice([LEAST, 1, 2147483648, MOST]))


def wrong_degrees(rng, arguments):
    """2: a degree too small, too large, or above level N."""
    wrong = [four((1,)), four((65,)), four((2, 2)), (2, 0, 0, 1)]
    return replaced(arguments, 2, rng.choice(wrong))


def wrong_tower(rng, arguments):
    """3: another degree word, no last 1, or a word less or more."""
    wrong = [[1, 0, 0, 1], [2, 0, 0, 0], [2, 0, 0], [2, 0, 0, 1, 0], []]
    return replaced(arguments, TOWER, rng.choice(wrong))


def wrong_length(rng, arguments):
    """4: a, b or the answer slot a word short or long, or empty."""
    place = rng.choice([A, B, ANSWER])
    slot = arguments[place]
    return replaced(arguments, place, rng.choice([slot[:-1], slot + [0], []]))


def wrong_form(rng, arguments):
    """5: the last word of a, or of b, no residue."""
    place = rng.choice([A, B])
    return replaced(arguments, place, arguments[place][:-1] + [rng.choice([-1, MOST])])


def no_room(rng, arguments):
    """6: an answer slot of one coefficient, of three words."""
    return replaced(arguments, ANSWER, arguments[ANSWER][:4])


def short_work(rng, arguments):
    """7: less than the 8 words of M(1)."""
    return replaced(arguments, WORK, arguments[WORK][:rng.choice([0, 7])])


def not_monic(rng, arguments):
    """8: b zero, or led by 3 or z; right for a product."""
    wrong = [zero_slot((2,), 2), [1, 1, 2, 1, 0, 3, 0], [1, -1, 0, 0, 1, 0, 1]]
    return replaced(arguments, B, rng.choice(wrong))


FAULTS = [wrong_modulus, wrong_degrees, wrong_tower, wrong_length, wrong_form,
          no_room, short_work, not_monic]


def both_order():
    """1 before 2 before .. before 8: each fault first, and later ones by a coin."""
    rng = random.Random(509)
    for first, _ in itertools.product(range(len(FAULTS)), range(30)):
        later = [fault for fault in FAULTS[first + 1:] if rng.random() < 0.5]
        arguments = right(rng, 4, (2,))
        for fault in reversed([FAULTS[first]] + later):
            arguments = fault(rng, arguments)
        yield arguments


# The answer slot and the work store.

def both_work():
    """7: a work store of none, one word less than M(N), M(N), and more words."""
    rng = random.Random(510)
    for p, degrees in RINGS[::2] + [(5, (3, 2))]:
        needed = words.product_work(degrees)
        for length in sorted({0, max(needed - 1, 0), needed, needed + 1, needed + 9}):
            yield replaced(right(rng, p, degrees), WORK, cases.rubbish(rng, length))


def contents(rng, p, full):
    """A list's words in turn: zeros, no residues, ends of the range, leavings."""
    length = len(full)
    return [[word] * length for word in (0, -1, 1, p, LEAST, MOST)] + [
        full, [-1] + full[1:], [length] + full[1:], cases.rubbish(rng, length)]


def both_contents():
    """'The entry contents of the work store change no answer'; nor do the slot's."""
    rng = random.Random(511)
    for p, degrees in [(6, ()), (2, (2,)), (2147483647, (2,)), (4, (2, 2))]:
        whole = right(rng, p, degrees)
        work = random_slot(rng, p, degrees, 3, 4)[:words.product_work(degrees)]
        for other in contents(rng, p, random_slot(rng, p, degrees, 3, 4)):
            yield replaced(whole, ANSWER, other)
        for other in contents(rng, p, work + [5]):
            yield replaced(whole, WORK, other)


BOTH = [both_moduli, both_levels, both_wrong_degrees, both_tower, both_other_lengths,
        both_lengths, both_every_word, both_leavings, both_order, both_work,
        both_contents]
