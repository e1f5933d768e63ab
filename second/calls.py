"""The public calls on raw numbers and words, every refusal included.

Each call takes p, N and the degrees as any ints and lists as any words, and
gives its answer, the numbers that stand beside it, and every lent list as it
must be afterwards, in the order of the arguments:
    (('done',), values, lists)   (('refused', number), values, lists)
The values are 0 in a refused call. 'Refusal numbers, tested in this order' are
tested over all arguments before the next number is. 'Numbers 1 to 10 leave
every lent word as found.'
"""

from second import ring, sequence, words


def first_number(tests):
    """The first number whose test holds; tests are (number, function) pairs."""
    return next((number for number, applies in tests if applies()), 0)


def answer_of(number):
    """Number 0 stands for no refusal."""
    return ("done",) if number == 0 else ("refused", number)


def as_found(number, *lists):
    """A refused call that gives no values: 'every lent word as found'."""
    return answer_of(number), (), tuple(list(lent) for lent in lists)


# The numbers 1 to 5.

def modulus_out_of_range(p):
    """1: 'p out of range', 'a number from 2 to 2,147,483,647'."""
    return not 2 <= p <= 2147483647


def tower_tests(p, levels, four_degrees, tower):
    """1 to 3, which every call with a tower asks first."""
    degrees = used_degrees(levels, four_degrees)
    return [
        (1, lambda: modulus_out_of_range(p)),
        (2, lambda: not words.degrees_allowed(levels, four_degrees)),
        (3, lambda: not words.tower_in_form(p, degrees, tower)),
    ]


def used_degrees(levels, four_degrees):
    """d_1 to d_N; of no use where number 2 applies."""
    return tuple(four_degrees[:max(levels, 0)])


def slot_tests(p, levels, four_degrees, inputs, answers=()):
    """4 of every slot, answer slots too, then 5 of every input."""
    degrees = used_degrees(levels, four_degrees)
    return [
        (4, lambda: not all(words.slot_length_allowed(degrees, len(slot))
                            for slot in [*inputs, *answers])),
        (5, lambda: not all(words.slot_in_form(p, degrees, slot)
                            for slot in inputs)),
    ]


# Answer slots and work stores.

def coefficients_in(degrees, slot):
    """The number k of a slot of k coefficients; its length is allowed."""
    return (len(slot) - 1) // words.sizes(degrees)[-1]


def rewritten(degrees, slot, f):
    """'The whole answer slot is written, the rest of it zeros in form.'"""
    return words.slot_to_words(degrees, f, coefficients_in(degrees, slot))


def cleared(needed, work):
    """'the needed work words are 0 and those beyond are as before'."""
    return [0] * needed + work[needed:]


# The calls.

def check_tower(p, levels, four_degrees, tower):
    """'check of a tower 1 to 3'; a check changes no word."""
    tests = tower_tests(p, levels, four_degrees, tower)
    return answer_of(first_number(tests)), (), (list(tower),)


def check_slot(p, levels, four_degrees, tower, slot):
    """'check of a slot and leading view 1 to 5'; a check changes no word."""
    tests = (tower_tests(p, levels, four_degrees, tower)
             + slot_tests(p, levels, four_degrees, [slot]))
    return answer_of(first_number(tests)), (), (list(tower), list(slot))


def number_of_view(p, levels, four_degrees, tower, a, b):
    """'check of a slot and leading view 1 to 5', or 0."""
    return first_number(tower_tests(p, levels, four_degrees, tower)
                        + slot_tests(p, levels, four_degrees, [a, b]))


def leading_view(p, levels, four_degrees, tower, a, b):
    """The leading coefficient 'of whichever has the higher degree, of a when they are
    equal'; 'an empty part' where a number applies 'or both are zero'.

    'This call hands out no number': the words shown stand in front of the lists.
    """
    shown = []
    if number_of_view(p, levels, four_degrees, tower, a, b) == 0:
        degrees = used_degrees(levels, four_degrees)
        f, g = words.slot_from_words(degrees, a), words.slot_from_words(degrees, b)
        higher = g if ring.degree(g) > ring.degree(f) else f
        if ring.degree(higher) >= 0:
            shown = words.element_to_words(degrees, levels, ring.leading(higher))
    return (), (), (shown, list(tower), list(a), list(b))


def room_for_sum(levels, four_degrees, a, b):
    """Whether a has 'max(deg a, deg b) + 1 coefficients'; a and b are in form."""
    count = coefficients_in(used_degrees(levels, four_degrees), a)
    return count >= max(a[0], b[0]) + 1


def in_place(operation, p, levels, four_degrees, tower, a, b):
    """A call whose 'answer replaces a': a and b on their values, 1 to 6."""
    tests = (tower_tests(p, levels, four_degrees, tower)
             + slot_tests(p, levels, four_degrees, [a, b])
             + [(6, lambda: not room_for_sum(levels, four_degrees, a, b))])
    number = first_number(tests)
    if number != 0:
        return as_found(number, tower, a, b)
    degrees = used_degrees(levels, four_degrees)
    result = operation(words.tower_from_words(p, degrees, tower), levels,
                       words.slot_from_words(degrees, a),
                       words.slot_from_words(degrees, b))
    return answer_of(0), (), (list(tower), rewritten(degrees, a, result), list(b))


def polynomial_sum(p, levels, four_degrees, tower, a, b):
    """'sum and difference 1 to 6': a + b replaces a."""
    return in_place(ring.poly_add, p, levels, four_degrees, tower, a, b)


def polynomial_difference(p, levels, four_degrees, tower, a, b):
    """'sum and difference 1 to 6': a - b replaces a."""
    return in_place(ring.poly_subtract, p, levels, four_degrees, tower, a, b)


def residue_of_fraction(p, n, e):
    """'fraction 1, 10'; the residue stands beside the answer."""
    answer = sequence.fraction(p, n, e)
    if answer[0] == "done":
        return ("done",), (answer[1],), ()
    return answer, (0,), ()


def work_sizes(levels, four_degrees, degree_a, degree_b):
    """'work sizes 2, 5'; M(N), I(N) and the GCD's number beside the answer."""
    answer = words.work_sizes(levels, four_degrees, degree_a, degree_b)
    if answer[0] == "done":
        return ("done",), answer[1], ()
    return answer, (0, 0, 0), ()
