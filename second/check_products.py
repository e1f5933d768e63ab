"""Product and division: every case by terms, figures by hand, and the order."""

from second import words
from second.calls import check_slot, used_degrees
from second.cases import four
from second.cases_both import EXAMPLE_DIVISOR
from second.cases_division import DIVISION
from second.cases_product import PRODUCT
from second.cases_slot import EXAMPLE_SLOT, SLOT_2_2, zero_slot
from second.cases_tower import EXAMPLE_TOWER, power_words
from second.check_calls import DONE, kept, refused
from second.products import polynomial_division, polynomial_product
from second.terms import plus, reduced, terms_of, times, tower_terms


def products_and_divisions(counter):
    """The cases of the program `vectors`, and then those done by hand."""
    for call, groups in [(polynomial_product, PRODUCT), (polynomial_division, DIVISION)]:
        for arguments in (case for group in groups for case in group()):
            number = expected_number(call, arguments)
            if number != 0:
                counter.check(kept(call, arguments, refused(number)), number, arguments)
            else:
                done_holds(counter.check, call, arguments)
    products_by_hand(counter.check)
    divisions_by_hand(counter.check)
    example(counter.check)
    work_words(counter.check)
    rooms(counter.check)
    order_of_product(counter.check)
    order_of_division(counter.check)


# The number, from the check of a slot and from lengths.

def expected_number(call, arguments):
    """The least number that some argument gives on its own; 0 for none."""
    a, b, slot = (check_slot(*arguments[:4], part)[0] for part in arguments[4:7])
    if slot == refused(5):
        slot = DONE  # 'Contents of answer slots .. are not tested.'
    early = {answer[1] for answer in (a, b, slot) if answer != DONE}
    return min(early or late_numbers(call, arguments), default=0)


def late_numbers(call, arguments):
    """Which of 6, 7 and 8 apply, where 1 to 5 do not."""
    levels, four_degrees, _, a, b, slot, work = arguments[1:]
    degrees = used_degrees(levels, four_degrees)
    size = words.sizes(degrees)[-1]
    leading = b[1 + b[0] * size:][:size] if b[0] >= 0 else []
    tests = [(6, len(slot) < 1 + least_room(call, a[0], b[0]) * size),
             (7, len(work) < work_by_lemma(degrees)),
             (8, call == polynomial_division
              and leading != words.one_words(degrees, levels))]
    return {number for number, applies in tests if applies}


def least_room(call, degree_a, degree_b):
    """The coefficients that the answer slot needs."""
    if call == polynomial_division:
        return max(degree_a - degree_b, 0) + 1
    return degree_a + degree_b + 1 if degree_a >= 0 and degree_b >= 0 else 1


def work_by_lemma(degrees):
    """M(N) by 001's Lemma 3: P(2 * d_i - 2, i-1) = 2 * S_i - S_(i-1) - 1."""
    size = words.sizes(degrees)
    return sum(2 * (2 * s - below - 1) for below, s in zip(size, size[1:]))


# What is given, by terms.

def done_holds(check, call, arguments):
    """The slots in form, the work store cleared, the rest as found, and the law."""
    answer, values, lists = call(*arguments)
    check((answer, values) == (DONE, ()), "done", arguments)
    p, levels, four_degrees, tower, a, b, slot, work = arguments
    degrees = used_degrees(levels, four_degrees)
    check(lists[0] == tower and lists[2] == b, "tower and b", arguments)
    for before, after in [(a, lists[1]), (slot, lists[3])]:
        check(len(before) == len(after) and words.slot_in_form(p, degrees, after),
              "a slot in form", arguments)
    needed = work_by_lemma(degrees)
    check(lists[4] == [0] * needed + work[needed:], "work words", arguments)
    law = product_holds if call == polynomial_product else division_holds
    check(law(p, degrees, arguments[3:], lists), "the law", arguments)


def product_by_terms(p, degrees, tower, a, b):
    """The product of two slots as terms."""
    product = times(p, terms_of(degrees, a), terms_of(degrees, b))
    return reduced(p, degrees, tower_terms(degrees, tower), product)


def product_holds(p, degrees, before, after):
    """a as found, and c its product with b."""
    tower, a, b = before[:3]
    return (after[1] == a
            and terms_of(degrees, after[3]) == product_by_terms(p, degrees, tower, a, b))


def division_holds(p, degrees, before, after):
    """b * q + r = a and deg r < deg b: only one q and r do so for a monic b."""
    tower, a, b = before[:3]
    remainder, quotient = after[1], after[3]
    again = plus(p, product_by_terms(p, degrees, tower, quotient, b),
                 terms_of(degrees, remainder))
    return again == terms_of(degrees, a) and remainder[0] < b[0]


# By hand.

# The modulus, a and b, and their product in a slot of as many coefficients.
PRODUCTS_OF_RESIDUES = [
    (6, [1, 1, 2], [1, 1, 3], [1, 1, 5, 0]),
    (7, [1, 1, 1], [1, 6, 1], [2, 6, 0, 1]),
    (7, [1, 3, 5, 0], [0, 2], [1, 6, 3, 0]),
    (4, [1, 0, 2], [1, 0, 2], [-1, 0, 0, 0]),
    (4, [1, 1, 2], [1, 1, 2], [0, 1, 0, 0, 0]),
    (5, [-1, 0, 0], [1, 2, 3], [-1, 0]),
    (2147483647, [0, 2147483646], [1, 1, 2147483646], [1, 2147483646, 1]),
]
PRODUCTS_OVER_T7 = [
    # ((z + 3)x + 1)((z + 4)x + 1) = 2zx + 1, since (z + 3)(z + 4) = 0.
    ([1, 0, 1, 0, 1, 3, 1], [1, 0, 1, 0, 1, 4, 1], [1, 0, 1, 0, 1, 0, 2, -1, 0, 0]),
    # 1(x + z), and z * z = 2.
    ([0, 0, 1, 0], [1, 1, 0, 1, 0, 1, 0], [1, 1, 0, 1, 0, 1, 0]),
    ([0, 1, 0, 1], [0, 1, 0, 1], [0, 0, 2, 0]),
]

# The modulus, a and b, the remainder in a's slot, and the quotient.
DIVISIONS_OF_RESIDUES = [
    # x^3 = x(x^2 + 1) - x, and 2x^2 + 3 = (2x + 4)(x + 4) + 5 modulo 6.
    (7, [3, 0, 0, 0, 1], [2, 1, 0, 1], [1, 0, 6, 0, 0], [1, 0, 1]),
    (6, [2, 3, 0, 2], [1, 4, 1], [0, 5, 0, 0], [1, 4, 2]),
    (4, [1, 3, 2], [0, 1], [-1, 0, 0], [1, 3, 2, 0]),
    (4, [1, 3, 2], [2, 0, 0, 1], [1, 3, 2], [-1, 0]),
    (5, [1, 4, 2], [1, 2, 1], [-1, 0, 0], [0, 2]),
    (5, [-1, 0], [1, 2, 1], [-1, 0], [-1, 0, 0]),
]


def call_gives(call, arguments, a_after, slot_after):
    """Whether a call is done, with these words in a and the answer slot, 0 as work."""
    answer, _, lists = call(*arguments)
    _, _, _, tower, _, b, _, work = arguments
    return (answer, lists) == (DONE, (tower, a_after, b, slot_after, [0] * len(work)))


def products_by_hand(check):
    """Products of small polynomials, among them document 01's modulo 6."""
    cases = [((p, 0, four(()), [], a, b), after, []) for p, a, b, after
             in PRODUCTS_OF_RESIDUES]
    cases += [((7, 1, four((2,)), [2, 5, 0, 1], a, b), after, [-1] * 8)
              for a, b, after in PRODUCTS_OVER_T7]
    for given, after, work in cases:
        for word in (-1, 5):
            arguments = given + ([word] * len(after), work)
            check(call_gives(polynomial_product, arguments, given[4], after), arguments)


def divisions_by_hand(check):
    """Divisions of small polynomials, and the calculator's worked `div`."""
    for p, a, b, remainder, quotient in DIVISIONS_OF_RESIDUES:
        arguments = (p, 0, four(()), [], a, b, [9] * len(quotient), [])
        check(call_gives(polynomial_division, arguments, remainder, quotient), arguments)
    for spare in range(3):
        arguments = (7, 1, four((2,)), [2, 5, 0, 1], [2, 0, 5, 0, -1, 0, 0, 0, 1, 0],
                     [1, 1, 0, 6, 0, 1, 0], [3] * (7 + 3 * spare), [7] * 8)
        check(call_gives(polynomial_division, arguments, [-1] + [-1, 0, 0] * 3,
                         [1, 1, 0, 1, 0, 1, 0] + [-1, 0, 0] * spare), "div", spare)


def example(check):
    """001, Example 2: f times itself from x^3 on, and f by x + z_2 + 1."""
    where = (17, 2, four((3, 2)), EXAMPLE_TOWER, EXAMPLE_SLOT)
    squared = polynomial_product(*where, EXAMPLE_SLOT, [1] * 46, [1] * 38)[2][3]
    check(squared[0] == 4, "001, the degree of f * f")
    check(squared[28:] == [1, 2, 15, 5, 12, 2, 0, 2, 9, 0, 0, 8, 0, 0, -1, 0, 0, 0],
          "001, f * f", squared)
    # q = 12x + B - 12(z_2 + 1), B the middle coefficient of f; r is f at -(z_2 + 1).
    zero = [-1, -1, 0, 0, 0, -1, 0, 0, 0]
    remainder = [0, 1, 2, 1, 10, 3, 2, 13, 2, 6] + zero * 2
    quotient = [1, 1, 2, 12, 8, 9, 2, 5, 10, 11, 0, 0, 12, 0, 0, -1, 0, 0, 0]
    arguments = where + (EXAMPLE_DIVISOR, [1] * 19, [1] * 38)
    check(call_gives(polynomial_division, arguments, remainder, quotient), "001, f by it")


# Numbers.

def work_words(check):
    """C4: 'd = (3, 2), 37 work words: product gives 7; 38 pass'; division likewise."""
    where = (17, 2, four((3, 2)), EXAMPLE_TOWER, EXAMPLE_SLOT, EXAMPLE_DIVISOR)
    slot = [4] * 37
    for call in (polynomial_product, polynomial_division):
        check(kept(call, where + (slot, [5] * 37), refused(7)), "C4, 37")
        for length in (38, 39, 50):
            answer, _, lists = call(*where, slot, [5] * length)
            check(answer == DONE and lists[4] == [0] * 38 + [5] * (length - 38), "C4")
    zero = zero_slot((3, 2), 1)
    arguments = where[:4] + (zero, zero, zero, [5] * 37)
    check(kept(polynomial_product, arguments, refused(7)), "7 of a product by zero")


# deg a, deg b, and the coefficients that product and quotient need.
ROOMS = [(-1, -1, 1, 1), (-1, 0, 1, 1), (-1, 3, 1, 1), (0, -1, 1, 2), (3, -1, 1, 5),
         (0, 0, 1, 1), (3, 0, 4, 4), (0, 3, 4, 1), (3, 1, 5, 3), (2, 2, 5, 1)]


def rooms(check):
    """Powers of x modulo 7: 6 for one coefficient less, then done, or 8 by zero."""
    for degree_a, degree_b, for_product, for_quotient in ROOMS:
        a, b = ([-1, 0] if d < 0 else [d] + [0] * d + [1] for d in (degree_a, degree_b))
        room_is(check, polynomial_product, a, b, for_product, DONE)
        room_is(check, polynomial_division, a, b, for_quotient,
                refused(8) if degree_b < 0 else DONE)


def room_is(check, call, a, b, least, answer):
    """6 for each answer slot below the least room, and this answer from there on."""
    for room in range(1, least + 3):
        expected = refused(6) if room < least else answer
        found = call(7, 0, four(()), [], a, b, [-1] * (1 + room), [])[0]
        check(found == expected, "room", call.__name__, a, b, room)


def order_of_product(check):
    """Each number before the later ones, over all slots before the next."""
    def gives(number, *arguments):
        check(kept(polynomial_product, arguments, refused(number)), number, arguments)

    tower, where = power_words((2, 2)), (2, 2, four((2, 2)))
    zero, bad, long = zero_slot((2, 2), 1), [1] + [7] * 14, [7] * 16
    gives(7, *where, tower, SLOT_2_2, SLOT_2_2, [7] * 22, [7] * 27)
    gives(6, *where, tower, SLOT_2_2, SLOT_2_2, [7] * 15, [7] * 27)
    gives(5, *where, tower, SLOT_2_2, bad, [7] * 8, [])
    gives(5, *where, tower, bad, zero, [7] * 8, [])
    gives(4, *where, tower, bad, bad, long, [])
    gives(4, *where, tower, bad, long, [7] * 8, [])
    gives(4, *where, tower, long, bad, [7] * 8, [])
    gives(3, *where, tower[:-1], [], [], [], [])
    gives(2, 2, 2, four((2, 1)), [], [], [], [], [])
    gives(1, 1, 2, four((2, 1)), [], [], [], [], [])


def order_of_division(check):
    """Each number before the later ones; 8 for what is not 1, of degree 0 too."""
    def gives(number, *arguments):
        check(kept(polynomial_division, arguments, refused(number)), number, arguments)

    tower, where = power_words((2, 2)), (2, 2, four((2, 2)))
    zero, bad, long = zero_slot((2, 2), 1), [1] + [7] * 14, [7] * 16
    gives(8, *where, tower, SLOT_2_2, SLOT_2_2, [7] * 8, [7] * 28)
    gives(8, *where, tower, SLOT_2_2, zero, [7] * 22, [7] * 28)
    gives(8, *where, tower, zero, [0, 0, 1, 0, 1, -1, 0, 0], [7] * 8, [7] * 28)
    gives(7, *where, tower, SLOT_2_2, zero, [7] * 22, [7] * 27)
    gives(6, *where, tower, SLOT_2_2, zero, [7] * 15, [7] * 27)
    gives(5, *where, tower, SLOT_2_2, bad, [7] * 8, [])
    gives(4, *where, tower, bad, zero, long, [])
    gives(4, *where, tower, long, bad, [7] * 8, [])
    gives(3, *where, tower[1:], [], [], [], [])
    gives(2, 2, 5, four((2, 2)), [], [], [], [], [])
    gives(1, 0, 5, four((2, 2)), [], [], [], [], [])
