"""Inverse and GCD on raw numbers and words, with the answers of calls.py.

Beside its inputs each takes an answer slot (r or g), a factor buffer and a work
store, and may give one answer more than the other calls:
    (('factor', level), values, lists)
'Contents of answer slots, factor buffer and work store are not tested', and here
they are not read.
"""

from second import sequence, words
from second.calls import (
    as_found, cleared, coefficients_in, first_number, rewritten, slot_tests,
    tower_tests, used_degrees)


def element_tests(p, levels, four_degrees, element, others):
    """4: 'element and factor buffer: exactly S_N'; then 5 of the element."""
    degrees = used_degrees(levels, four_degrees)
    return [
        (4, lambda: any(len(part) != words.sizes(degrees)[-1]
                        for part in [element, *others])),
        (5, lambda: not words.element_in_form(p, degrees, levels, element)),
    ]


def room_for_gcd(degree_a, degree_b):
    """'GCD, max + 1 and at least 1'."""
    return max(degree_a + 1, degree_b + 1, 1)


def ended(degrees, answer, written, slot, factor, work, needed):
    """What a sequence leaves: its answer, the slot, factor buffer and work store.

    'The answer slot keeps its old words. After Done the factor buffer keeps its
    own.' 'After Done, a factor or 11 the needed work words are 0'.
    """
    after = cleared(needed, work)
    if answer[0] == "done":
        return ("done",), written(answer[1]), list(factor), after
    if answer[0] == "factor":
        return answer[:2], list(slot), words.factor_to_words(degrees, *answer[1:]), after
    return answer, list(slot), list(factor), after


def element_inverse(p, levels, four_degrees, tower, c, r, factor, work):
    """'inverse 1 to 5, 7, 9, 11': the inverse of c goes into r."""
    degrees = used_degrees(levels, four_degrees)
    number = first_number(
        tower_tests(p, levels, four_degrees, tower)
        + element_tests(p, levels, four_degrees, c, [r, factor])
        + [(7, lambda: len(work) < words.inverse_work(degrees)),
           (9, lambda: c == words.zero_words(degrees, levels))])
    if number != 0:
        return as_found(number, tower, c, r, factor, work)
    found = sequence.inverse(words.tower_from_words(p, degrees, tower),
                             words.element_from_words(degrees, levels, c))
    answer, *after = ended(degrees, found,
                           lambda u: words.element_to_words(degrees, levels, u),
                           r, factor, work, words.inverse_work(degrees))
    return answer, (), (list(tower), list(c), *after)


def gcd_tests(p, levels, four_degrees, tower, a, b, g, factor, work):
    """1 to 7; 4 looks at the factor buffer too."""
    degrees = used_degrees(levels, four_degrees)
    length_of_slots, form = slot_tests(p, levels, four_degrees, [a, b], [g])
    return (tower_tests(p, levels, four_degrees, tower)
            + [length_of_slots,
               (4, lambda: len(factor) != words.sizes(degrees)[-1]),
               form,
               (6, lambda: coefficients_in(degrees, g) < room_for_gcd(a[0], b[0])),
               (7, lambda: len(work) < words.gcd_work(degrees, a[0], b[0]))])


def polynomial_gcd(p, levels, four_degrees, tower, a, b, g, factor, work):
    """'GCD 1 to 7, 11': 'a and b are only read, the answer goes into g'."""
    number = first_number(
        gcd_tests(p, levels, four_degrees, tower, a, b, g, factor, work))
    if number != 0:
        return as_found(number, tower, a, b, g, factor, work)
    degrees = used_degrees(levels, four_degrees)
    found = sequence.gcd(words.tower_from_words(p, degrees, tower),
                         words.slot_from_words(degrees, a),
                         words.slot_from_words(degrees, b))
    answer, *after = ended(degrees, found, lambda f: rewritten(degrees, g, f),
                           g, factor, work, words.gcd_work(degrees, a[0], b[0]))
    return answer, (), (list(tower), list(a), list(b), *after)
