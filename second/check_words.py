"""Words: reading gives back what was written, and the form test is exact."""

import itertools
import random

from second import ring, samples, words
from second.ring import Tower


def words_and_values(counter):
    """Random writings, then every list of words for tiny sizes."""
    random_writings(counter.check)
    for p, degrees in [(2, ()), (3, ()), (2, (2,)), (3, (2,)), (2, (3,)),
                       (3, (3,)), (2, (2, 2))]:
        every_element_writing(counter.check, p, degrees)
    for p, degrees, room in [(2, (), 1), (2, (), 4), (3, (), 4), (6, (), 3),
                             (2, (2,), 1), (3, (2,), 1), (2, (2,), 2),
                             (2, (3,), 1)]:
        every_slot_writing(counter.check, p, degrees, room)
    for p, d in [(2, 2), (3, 2), (2, 3), (3, 3), (2, 4)]:
        every_tower_writing(counter.check, p, d)
    second_level_writing(counter.check)


def random_writings(check):
    """Random elements, slots and towers, and lists with one word changed."""
    rng = random.Random(6)
    for tower in samples.random_towers(rng, samples.MODULI, 4, 3):
        p, level, degrees = tower.modulus, ring.top_level(tower), ring.degrees(tower)
        size = words.sizes(degrees)
        written = words.tower_to_words(tower)
        check(words.tower_from_words(p, degrees, written) == tower, "tower", tower)
        check(words.tower_in_form(p, degrees, written), "tower", tower)
        check(not words.tower_in_form(p, degrees, written + [0]), "long", tower)
        for _ in range(6):
            a = samples.random_element(rng, tower, level)
            written = words.element_to_words(degrees, level, a)
            check(len(written) == size[level], "S_N words", tower, a)
            check(words.element_from_words(degrees, level, written) == a, tower, a)
            check(words.element_in_form(p, degrees, level, written), tower, a)
            f = samples.random_polynomial(rng, tower, level, 4)
            room = rng.randint(max(len(f), 1), 6)
            written = words.slot_to_words(degrees, f, room)
            check(len(written) == 1 + room * size[level], "a slot", tower, f)
            check(words.slot_from_words(degrees, written) == f, tower, f)
            check(words.slot_in_form(p, degrees, written), tower, f)
            written[rng.randrange(len(written))] += rng.choice([-1, 1, p, -p])
            if words.slot_in_form(p, degrees, written):
                other = words.slot_from_words(degrees, written)
                check(other != f, "one value, two writings", tower, f)
                check(words.slot_to_words(degrees, other, room) == written, tower)


def accepts_exactly(check, values, length, in_form, writings, *what):
    """Of all lists of words from values, the form test accepts just the writings."""
    accepted = [w for w in itertools.product(values, repeat=length)
                if in_form(list(w))]
    expected = sorted(tuple(w) for w in writings)
    check(len(set(expected)) == len(expected), "two values, one writing", *what)
    check(sorted(accepted) == expected, "form test", *what)


def no_other_length(check, in_form, writings, *what):
    """A writing with its last word dropped, or with one word more, is refused."""
    for w in writings:
        check(not in_form(w[:-1]), "too short", w, *what)
        check(not in_form(w + [0]), "too long", w, *what)


def values_to_try(p, degrees, room=0):
    """The words -2 to p, and on to the highest degree word where that is above p."""
    return range(-2, max((p, room - 1) + degrees) + 1)


def every_element_writing(check, p, degrees):
    """The form test of elements, on every list of words."""
    def in_form(w):
        return words.element_in_form(p, degrees, level, w)

    level = len(degrees)
    what = ("elements", p, degrees)
    writings = [words.element_to_words(degrees, level, a)
                for a in samples.all_elements(samples.power_tower(p, degrees), level)]
    accepts_exactly(check, values_to_try(p, degrees), words.sizes(degrees)[level],
                    in_form, writings, *what)
    no_other_length(check, in_form, writings, *what)


def every_slot_writing(check, p, degrees, room):
    """The form test of slots, on every list of words."""
    tower, level = samples.power_tower(p, degrees), len(degrees)
    writings = [words.slot_to_words(degrees, f, room)
                for f in samples.all_polynomials(tower, level, room - 1)]
    accepts_exactly(check, values_to_try(p, degrees, room),
                    1 + room * words.sizes(degrees)[level],
                    lambda w: words.slot_in_form(p, degrees, w),
                    writings, "slots", p, degrees, room)


def every_tower_writing(check, p, d):
    """The form test of towers of one level, on every list of words."""
    def in_form(w):
        return words.tower_in_form(p, (d,), w)

    what = ("towers", p, d)
    towers = [Tower(p, (m,)) for m in samples.all_monic(Tower(p, ()), 0, d)]
    writings = [words.tower_to_words(tower) for tower in towers]
    accepts_exactly(check, values_to_try(p, (d,)), d + 2, in_form, writings, *what)
    no_other_length(check, in_form, writings, *what)


def second_level_writing(check):
    """The form test of m_2 for p = 2 and d = (2, 2), on all words from -1 to 2."""
    def in_form(w):
        return words.tower_polynomial_in_form(p, degrees, 2, w)

    p, degrees = 2, (2, 2)
    what = ("m_2", p, degrees)
    writings = [words.tower_polynomial_to_words(degrees, 2, m)
                for m in samples.all_monic(samples.power_tower(p, degrees), 1, 2)]
    accepts_exactly(check, range(-1, 3), 10, in_form, writings, *what)
    no_other_length(check, in_form, writings, *what)
