"""The calls on raw numbers and words: figures C1 to C3 and C11, and the order."""

from second import calls, cases_view, words
from second.cases import LEAST, MOST, four
from second.cases_slot import EXAMPLE_SLOT, SLOT_2_2
from second.cases_tower import EXAMPLE_TOWER, power_words

DONE = ("done",)


def refused(number):
    """The answer of a refused call."""
    return "refused", number


def kept(call, arguments, answer):
    """Whether a call gives this answer alone and leaves every list as found."""
    found = tuple(list(a) for a in arguments if isinstance(a, list))
    return call(*arguments) == (answer, (), found)


def tower_is(answer, *arguments):
    """What the check of a tower must give."""
    return kept(calls.check_tower, arguments, answer)


def slot_is(answer, *arguments):
    """What the check of a slot must give."""
    return kept(calls.check_slot, arguments, answer)


def sum_is(answer, *arguments):
    """What a refused sum and a refused difference must give."""
    return all(kept(call, arguments, answer)
               for call in (calls.polynomial_sum, calls.polynomial_difference))


def gives(call, arguments, after):
    """Whether a call is done, with these words in a and the other lists as found."""
    tower, _, b = arguments[3:]
    return call(*arguments) == (DONE, (), (tower, after, b))


def calls_and_refusals(counter):
    """The figures, 001's example, and which number comes first."""
    figures(counter.check)
    example(counter.check)
    order_of_tower(counter.check)
    order_of_slot(counter.check)
    views_by_hand(counter.check)
    order_of_view(counter.check)
    reasons_of_view(counter.check)
    sums_by_hand(counter.check)
    order_of_sum(counter.check)
    order_of_numbers(counter.check)


def figures(check):
    """C1, C2, C3 and C11 of document 01."""
    for p, answer in [(1, refused(1)), (2, DONE), (2147483647, DONE),
                      (2147483648, refused(1))]:
        check(tower_is(answer, p, 0, four(()), []), "C1, tower", p)
        check(slot_is(answer, p, 0, four(()), [], [-1, 0]), "C1, slot", p)
        check(calls.residue_of_fraction(p, 0, 1)[0] == answer, "C1, fraction", p)
    for degrees, answer in [((64, 31), DONE), ((64, 32), refused(2)),
                            ((2, 1), refused(2)), ((65, 2), refused(2))]:
        tower = power_words(degrees)
        check(tower_is(answer, 5, 2, four(degrees), tower), "C2", degrees)
    for count, answer in [(32, DONE), (33, refused(4))]:
        tower, slot = power_words((64, 31)), words.slot_to_words((64, 31), (), count)
        check(slot_is(answer, 5, 2, four((64, 31)), tower, slot), "C3", count)
    check(calls.residue_of_fraction(17, -1, 5) == (DONE, (10,), ()), "C11, -1/5")
    check(calls.residue_of_fraction(7, 1, 7) == (refused(10), (0,), ()), "C11, 1/7")
    check(calls.work_sizes(2, four((3, 2)), -1, -1)
          == (DONE, (38, 90, 2 + 18 + 90), ()), "M(2) and I(2)")


def example(check):
    """001, Example 2: its words pass, and each of them matters."""
    check(len(EXAMPLE_TOWER) == 18 and len(EXAMPLE_SLOT) == 28, "001, lengths")
    where = (17, 2, four((3, 2)))
    check(tower_is(DONE, *where, EXAMPLE_TOWER), "001, tower")
    check(slot_is(DONE, *where, EXAMPLE_TOWER, EXAMPLE_SLOT), "001, slot")
    for place in range(18):
        tower = EXAMPLE_TOWER[:place] + [17] + EXAMPLE_TOWER[place + 1:]
        check(tower_is(refused(3), *where, tower), "001, tower", place)
    for place in range(28):
        slot = EXAMPLE_SLOT[:place] + [17] + EXAMPLE_SLOT[place + 1:]
        check(slot_is(refused(5), *where, EXAMPLE_TOWER, slot), "001, slot", place)


def order_of_tower(check):
    """1 before 2 before 3."""
    check(tower_is(refused(1), LEAST, MOST, (MOST,) * 4, [7]), "1 first")
    check(tower_is(refused(2), 2, MOST, (MOST,) * 4, [7]), "2 before 3")
    check(tower_is(refused(3), 2, 0, four(()), [7]), "3, N = 0")
    check(tower_is(refused(2), 2, 0, (0, 0, 0, 2), []), "a degree above N")
    check(tower_is(refused(3), 2, 1, four((2,)), [2, 0, 0, 0]), "not monic")


def order_of_slot(check):
    """Each number before the later ones."""
    right, where = power_words((2, 2)), (2, 2, four((2, 2)))
    check(slot_is(DONE, *where, right, SLOT_2_2), "in form")
    check(slot_is(refused(5), *where, right, [7] * 15), "5")
    check(slot_is(refused(4), *where, right, [7] * 16), "4 before 5")
    check(slot_is(refused(3), *where, right[:-1], []), "3 before 4")
    check(slot_is(refused(2), 2, 2, four((2, 1)), [], []), "2 before 3")
    check(slot_is(refused(1), 1, 2, four((2, 1)), [], []), "1 first")


# p, a, b and what their leading view shows by hand, without a tower and over T7.
VIEWS_OF_RESIDUES = [
    (7, [1, 5, 3], [1, 4, 6], [3]), (7, [1, 5, 3], [2, 0, 0, 6], [6]),
    (7, [0, 5, 0], [1, 4, 6], [6]), (7, [2, 0, 0, 4], [1, 4, 6, 0], [4]),
    (2, [-1, 0], [0, 1], [1]), (2, [0, 1], [-1, 0], [1]), (2, [-1, 0], [-1, 0, 0], []),
]
VIEWS_OVER_T7 = [
    # (z + 3)x + 2z and 6z + 4, then the other way round.
    ([1, 1, 0, 2, 1, 3, 1], [0, 1, 4, 6], [1, 3, 1]),
    ([0, 1, 4, 6], [1, 1, 0, 2, 1, 3, 1], [1, 3, 1]),
    # z + 3 and 6, of one degree: a's.
    ([0, 1, 3, 1, -1, 0, 0], [0, 0, 6, 0], [1, 3, 1]),
    ([0, 0, 6, 0], [0, 1, 3, 1, -1, 0, 0], [0, 6, 0]),
    ([-1, -1, 0, 0], [-1, -1, 0, 0, -1, 0, 0], []),
]


def view_is(shown, *arguments):
    """Whether the leading view shows these words and leaves every list as found."""
    found = tuple(list(a) for a in arguments if isinstance(a, list))
    return calls.leading_view(*arguments) == ((), (), (shown,) + found)


def views_by_hand(check):
    """The words that the leading view shows of small polynomials."""
    for p, a, b, shown in VIEWS_OF_RESIDUES:
        check(view_is(shown, p, 0, four(()), [], a, b), "view", p, a, b)
    for a, b, shown in VIEWS_OVER_T7:
        check(view_is(shown, 7, 1, four((2,)), [2, 5, 0, 1], a, b), "view, T7", a, b)


def order_of_view(check):
    """An empty part for each number, of each list in turn."""
    right, where = power_words((2, 2)), (2, 2, four((2, 2)))
    check(view_is([1, 1, 0, 1, 0, 1, 0], *where, right, SLOT_2_2, SLOT_2_2), "shown")
    for tower, a, b in [(right, SLOT_2_2, [7] * 15), (right, [7] * 15, SLOT_2_2),
                        (right, SLOT_2_2, SLOT_2_2[:-1]), (right, SLOT_2_2[:-1], SLOT_2_2),
                        (right[:-1], SLOT_2_2, SLOT_2_2)]:
        check(view_is([], *where, tower, a, b), "3 to 5", tower, a, b)
    check(view_is([], 2, 2, four((2, 1)), right, SLOT_2_2, SLOT_2_2), "2")
    check(view_is([], 1, 2, four((2, 2)), right, SLOT_2_2, SLOT_2_2), "1")


def reasons_of_view(check):
    """The cases have every reason for an empty part, and views of a and of b."""
    met = set()
    for arguments in (case for group in cases_view.VIEW for case in group()):
        number, (a, b) = calls.number_of_view(*arguments), arguments[4:]
        met.add(number if number else ("degrees", min(a[0], 0), min(b[0], 0),
                                       (a[0] > b[0]) - (a[0] < b[0])))
    check(met == {1, 2, 3, 4, 5, ("degrees", -1, -1, 0), ("degrees", -1, 0, -1),
                  ("degrees", 0, -1, 1), ("degrees", 0, 0, -1), ("degrees", 0, 0, 0),
                  ("degrees", 0, 0, 1)}, "reasons of a view", met)


# a, b, a + b and a - b by hand: modulo p, and over T7, p = 7 with m_1 = z^2 + 5.
SUMS_OF_RESIDUES = [
    (7, [1, 5, 3], [1, 4, 6], [1, 2, 2], [1, 1, 4]),
    (7, [1, 5, 3], [1, 1, 4], [0, 6, 0], [1, 4, 6]),
    (7, [2, 1, 2, 3], [2, 1, 2, 4], [1, 2, 4, 0], [2, 0, 0, 6]),
    (7, [2, 1, 2, 3], [2, 1, 2, 3], [2, 2, 4, 6], [-1, 0, 0, 0]),
    (6, [1, 3, 3], [1, 3, 3], [-1, 0, 0], [-1, 0, 0]),
    (4, [-1, 0, 0], [0, 1], [0, 1, 0], [0, 3, 0]),
    (4, [0, 1, 0], [-1, 0, 0, 0], [0, 1, 0], [0, 1, 0]),
    (2147483647, [0, 2147483646], [0, 2147483645], [0, 2147483644], [0, 1]),
]
SUMS_OVER_T7 = [
    # (z + 3)x + 2z and 6z + 4: the constants are z + 4 and 3z + 3.
    ([1, 1, 0, 2, 1, 3, 1], [0, 1, 4, 6], [1, 1, 4, 1, 1, 3, 1], [1, 1, 3, 3, 1, 3, 1]),
    # (z + 3)x and (6z + 4)x: zero, and (2z + 6)x.
    ([1, -1, 0, 0, 1, 3, 1], [1, -1, 0, 0, 1, 4, 6],
     [-1, -1, 0, 0, -1, 0, 0], [1, -1, 0, 0, 1, 6, 2]),
    # z + 3 and 6z: 3, and 2z + 3.
    ([0, 1, 3, 1], [0, 1, 0, 6], [0, 0, 3, 0], [0, 1, 3, 2]),
]


def sums_by_hand(check):
    """Sum and difference of small polynomials, the words of a afterwards."""
    cases = [((p, 0, four(()), [], a, b), both) for p, a, b, *both in SUMS_OF_RESIDUES]
    cases += [((7, 1, four((2,)), [2, 5, 0, 1], a, b), both)
              for a, b, *both in SUMS_OVER_T7]
    for arguments, (plus, minus) in cases:
        check(gives(calls.polynomial_sum, arguments, plus), "sum", arguments)
        check(gives(calls.polynomial_difference, arguments, minus),
              "difference", arguments)


def order_of_sum(check):
    """Each number before the later ones, over both slots before the next."""
    right, where = power_words((2, 2)), (2, 2, four((2, 2)))
    zero = words.slot_to_words((2, 2), (), 1)
    check(sum_is(refused(6), *where, right, zero, SLOT_2_2), "6")
    check(sum_is(refused(5), *where, right, [7] * 8, SLOT_2_2), "5 of a before 6")
    check(sum_is(refused(5), *where, right, zero, [1] + [7] * 14), "5 of b before 6")
    check(sum_is(refused(4), *where, right, [7] * 15, [7] * 16), "4 of b before 5 of a")
    check(sum_is(refused(4), *where, right, [7] * 16, [7] * 15), "4 of a before 5 of b")
    check(sum_is(refused(3), *where, right[:-1], [], []), "3 before 4")
    check(sum_is(refused(2), 2, 2, four((2, 1)), [], [], []), "2 before 3")
    check(sum_is(refused(1), 1, 2, four((2, 1)), [], [], []), "1 first")


def order_of_numbers(check):
    """Fraction: 1 before 10. Work sizes: 2 before 5."""
    check(calls.residue_of_fraction(1, 1, 0) == (refused(1), (0,), ()), "1 first")
    check(calls.residue_of_fraction(7, 1, 0) == (refused(10), (0,), ()), "e = 0")
    zeros = (0, 0, 0)
    check(calls.work_sizes(5, four(()), -2, 0) == (refused(2), zeros, ()), "2 first")
    check(calls.work_sizes(0, four(()), 0, 256) == (refused(5), zeros, ()), "5")
