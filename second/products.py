"""Product and division on raw numbers and words, with the answers of calls.py.

Both take a and b, an answer slot (c or q) and a work store. 'Contents of answer
slots, factor buffer and work store are not tested', and here they are not read.
"""

from second import ring, words
from second.calls import (
    answer_of, as_found, cleared, coefficients_in, first_number, rewritten, slot_tests,
    tower_tests, used_degrees)


def room_for_product(degree_a, degree_b):
    """'deg a + deg b + 1 even where the leading product vanishes', or 1 for a zero."""
    return 1 if -1 in (degree_a, degree_b) else degree_a + degree_b + 1


def room_for_quotient(degree_a, degree_b):
    """'deg a - deg b + 1 and at least 1', also for a zero b, of degree -1."""
    return max(degree_a - degree_b + 1, 1)


def tests_to_seven(room, p, levels, four_degrees, tower, a, b, answer, work):
    """1 to 7; the answer slot needs the room of the degrees of a and b."""
    degrees = used_degrees(levels, four_degrees)
    return (tower_tests(p, levels, four_degrees, tower)
            + slot_tests(p, levels, four_degrees, [a, b], [answer])
            + [(6, lambda: coefficients_in(degrees, answer) < room(a[0], b[0])),
               (7, lambda: len(work) < words.product_work(degrees))])


def not_monic(levels, four_degrees, b):
    """8: 'divisor not monic, or zero'; b is in form."""
    degrees = used_degrees(levels, four_degrees)
    return not ring.is_monic(levels, words.slot_from_words(degrees, b))


def polynomial_product(p, levels, four_degrees, tower, a, b, c, work):
    """'product 1 to 7': a times b goes into c."""
    number = first_number(tests_to_seven(
        room_for_product, p, levels, four_degrees, tower, a, b, c, work))
    if number != 0:
        return as_found(number, tower, a, b, c, work)
    degrees = used_degrees(levels, four_degrees)
    product = ring.poly_multiply(words.tower_from_words(p, degrees, tower), levels,
                                 words.slot_from_words(degrees, a),
                                 words.slot_from_words(degrees, b))
    return answer_of(0), (), (list(tower), list(a), list(b),
                              rewritten(degrees, c, product),
                              cleared(words.product_work(degrees), work))


def polynomial_division(p, levels, four_degrees, tower, a, b, q, work):
    """'division 1 to 8': the remainder replaces a, the quotient goes into q."""
    number = first_number(
        tests_to_seven(room_for_quotient, p, levels, four_degrees, tower, a, b, q, work)
        + [(8, lambda: not_monic(levels, four_degrees, b))])
    if number != 0:
        return as_found(number, tower, a, b, q, work)
    degrees = used_degrees(levels, four_degrees)
    quotient, remainder = ring.poly_divide(
        words.tower_from_words(p, degrees, tower), levels,
        words.slot_from_words(degrees, a), words.slot_from_words(degrees, b))
    return answer_of(0), (), (list(tower), rewritten(degrees, a, remainder), list(b),
                              rewritten(degrees, q, quotient),
                              cleared(words.product_work(degrees), work))
