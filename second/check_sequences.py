"""The calls inverse and GCD: every case by terms, figures by hand, and the order."""

from second import ring, sequence, words
from second.calls import check_slot, check_tower, used_degrees
from second.cases import four
from second.cases_gcd import GCD
from second.cases_inverse import INVERSE
from second.cases_slot import SLOT_2_2, zero_slot
from second.cases_tower import power_words
from second.check_calls import DONE, kept, refused
from second.check_products import product_by_terms
from second.sequence_calls import element_inverse, polynomial_gcd
from second.terms import plus, terms_of


def inverses_and_gcds(counter):
    """The cases of both calls, and then those done by hand."""
    for call, groups, law in [(element_inverse, INVERSE, inverse_holds),
                              (polynomial_gcd, GCD, gcd_holds)]:
        number_of = inverse_number if call == element_inverse else gcd_number
        for arguments in (case for group in groups for case in group()):
            number = number_of(*arguments)
            if number != 0:
                counter.check(kept(call, arguments, refused(number)), number, arguments)
            else:
                run_holds(counter, call, law, arguments)
    inverses_by_hand(counter.check)
    gcds_by_hand(counter.check)
    order_of_inverse(counter.check)
    order_of_gcd(counter.check)


# The number, from the checks of a tower and of a slot and from lengths.

def inverse_number(p, levels, four_degrees, tower, c, r, factor, work):
    """1 to 5, 7 or 9, or 0 for none; c is looked at as a slot of one coefficient."""
    early = check_tower(p, levels, four_degrees, tower)[0]
    if early != DONE:
        return early[1]
    degrees = used_degrees(levels, four_degrees)
    if {len(c), len(r), len(factor)} != {words.sizes(degrees)[-1]}:
        return 4
    zero = c == zero_slot(degrees, 1)[1:]
    slot = [-1 if zero else 0] + c
    if check_slot(p, levels, four_degrees, tower, slot)[0] != DONE:
        return 5
    if len(work) < inverse_words(tower):
        return 7
    return 9 if zero else 0


def gcd_number(p, levels, four_degrees, tower, a, b, g, factor, work):
    """The least number of 1 to 7 that some argument gives; 0 for none."""
    found = [check_slot(p, levels, four_degrees, tower, slot)[0] for slot in (a, b, g)]
    if found[2] == refused(5):
        found[2] = DONE  # 'Contents of answer slots .. are not tested.'
    early = {answer[1] for answer in found if answer != DONE}
    degrees = used_degrees(levels, four_degrees)
    if not early & {1, 2, 3} and len(factor) != words.sizes(degrees)[-1]:
        early.add(4)
    if early:
        return min(early)
    size = words.sizes(degrees)[-1]
    if len(g) < 1 + size * max(a[0] + 1, b[0] + 1, 1):
        return 6
    return 7 if len(work) < gcd_words(degrees, tower, a, b) else 0


def inverse_words(tower):
    """I(N): P(d_i, i-1) is S_i + S_(i-1), the words of m_i, so five times the tower's."""
    return 5 * len(tower)


def gcd_words(degrees, tower, a, b):
    """The GCD's number, in one sum."""
    return (a[0] + b[0] + 4) * words.sizes(degrees)[-1] + 2 + inverse_words(tower)


# What is given, by terms.

def run_holds(counter, call, law, arguments):
    """What each answer keeps and clears, and that it is right."""
    check = counter.check
    answer, values, lists = call(*arguments)
    counter.not_eleven(answer, arguments)
    p, levels, four_degrees, *before = arguments
    degrees = used_degrees(levels, four_degrees)
    slot, factor, work = before[-3:]
    check(values == () and len(lists) == len(before), "lists", arguments)
    check(list(lists[:-3]) == before[:-3], "inputs as found", arguments)
    needed = (inverse_words(before[0]) if call == element_inverse
              else gcd_words(degrees, *before[:3]))
    check(lists[-1] == [0] * needed + work[needed:], "work words", arguments)
    if answer == DONE:
        check(lists[-2] == factor, "factor buffer as found", arguments)
        check(law(p, degrees, before, lists[-3]), "the law", arguments)
    else:
        check(answer[0] == "factor" and lists[-3] == slot, "slot as found", arguments)
        check(len(lists[-2]) == len(factor)
              and factor_holds(p, degrees, before[0], answer[1], lists[-2]),
              "a proper factor", arguments)


def inverse_holds(p, degrees, before, u):
    """u is in form and u * c = 1, both as slots of one coefficient."""
    tower, c = before[:2]
    product = product_by_terms(p, degrees, tower, [0] + u, [0] + c)
    return (words.element_in_form(p, degrees, len(degrees), u)
            and product == {(0,) * (1 + len(degrees)): 1})


def gcd_holds(p, degrees, before, g):
    """g is monic, or zero where a and b are; it divides both, and is a combination."""
    tower, a, b, slot = before[:4]
    if len(g) != len(slot) or not words.slot_in_form(p, degrees, g):
        return False
    if a[0] == b[0] == -1:
        return g[0] == -1
    size = words.sizes(degrees)[-1]
    leading = g[1 + g[0] * size:][:size] if g[0] >= 0 else []
    if leading != words.one_words(degrees, len(degrees)):
        return False
    values = words.tower_from_words(p, degrees, tower)
    f, h, m = (words.slot_from_words(degrees, slot) for slot in (a, b, g))
    level = len(degrees)

    def product(slot, polynomial):
        return product_by_terms(p, degrees, tower, slot,
                                words.shortest_slot(degrees, polynomial))

    divides = all(
        product(g, ring.poly_divide(values, level, value, m)[0]) == terms_of(degrees, of)
        for value, of in [(f, a), (h, b)])
    s, t = cofactors(values, level, f, h)
    return divides and plus(p, product(a, s), product(b, t)) == terms_of(degrees, g)


def cofactors(tower, level, a, b):
    """s and t with s * a + t * b the GCD, by the sequence with them beside it."""
    one = (ring.one(level),)
    first, second = (scaled(tower, level, row) for row in [(a, one, ()), (b, (), one)])
    while second[0] != ():
        quotient = ring.poly_divide(tower, level, first[0], second[0])[0]
        less = [ring.poly_subtract(tower, level, f,
                                   ring.poly_multiply(tower, level, quotient, g))
                for f, g in zip(first, second)]
        first, second = second, scaled(tower, level, less)
    return first[1:]


def scaled(tower, level, row):
    """The row times the inverse of the leading coefficient of its first."""
    scale = sequence.monic_and_scale(tower, level, row[0])[1]
    return [ring.poly_scale(tower, level, scale, f) for f in row]


def factor_holds(p, degrees, tower, level, buffer):
    """Demand 3: a monic proper factor of m_level, or of p, and zeros behind it."""
    size = words.sizes(degrees)[level]
    block, rest = buffer[:size], buffer[size:]
    if any(rest) or not words.element_in_form(p, degrees, level, block):
        return False
    if level == 0:
        return 1 < block[0] < p and p % block[0] == 0
    below, least = degrees[:level - 1], words.sizes(degrees)[level - 1]
    if not 1 <= block[0] < degrees[level - 1]:
        return False
    if block[1 + block[0] * least:][:least] != words.one_words(degrees, level - 1):
        return False
    parts = words.tower_parts(degrees, tower)
    values = words.tower_from_words(p, degrees, tower)
    quotient = ring.poly_divide(values, level - 1, ring.tower_polynomial(values, level),
                                words.element_from_words(degrees, level, block))[0]
    product = product_by_terms(p, below, sum(parts[:level - 1][::-1], []), block,
                               words.shortest_slot(below, quotient))
    return product == terms_of(below, parts[level - 1])


# By hand.

def factor(level):
    """The answer of a call that shows a factor."""
    return "factor", level


# The modulus, the tower of at most one level, c, the answer, and what is written.
INVERSES = [
    (6, [], [5], DONE, [5]),                        # C5
    (6, [], [4], factor(0), [2]),
    (7, [2, 5, 0, 1], [1, 6, 1], DONE, [1, 1, 1]),  # C6
    (7, [2, 5, 0, 1], [1, 3, 1], factor(1), [1, 3, 1]),
    (7, [2, 5, 0, 1], [1, 6, 2], factor(1), [1, 3, 1]),  # 2z + 6 = 2(z + 3)
    (7, [2, 5, 0, 1], [0, 3, 0], DONE, [0, 5, 0]),
    (4, [2, 1, 1, 1], [1, 1, 2], factor(0), [2, 0, 0]),  # C12
    (4, [2, 1, 1, 1], [1, 0, 1], DONE, [1, 3, 3]),  # z * (-z - 1) = 1
    (2147483647, [], [2], DONE, [1073741824]),
    (2147483646, [], [9], factor(0), [9]),
]

# The modulus, the tower, a and b, the answer, and what is written.
GCDS = [
    (7, [], [2, 6, 0, 1], [2, 1, 2, 1], DONE, [1, 1, 1, 0]),  # C8
    (7, [], [1, 1, 1], [2, 6, 0, 1], DONE, [1, 1, 1, 0]),
    (6, [], [1, 1, 5], [0, 3], factor(0), [3]),
    (6, [], [1, 1, 5], [1, 1, 1], factor(0), [2]),  # x + 5 and x + 1: the remainder 4
    (7, [2, 5, 0, 1], [1, 0, 1, 0, 1, 3, 1], [1, -1, 0, 0, 0, 1, 0],
     factor(1), [1, 3, 1]),  # C9
    (7, [2, 5, 0, 1], [-1, -1, 0, 0], [-1] + [-1, 0, 0] * 2, DONE, [-1, -1, 0, 0]),  # C10
    (7, [2, 5, 0, 1], [-1, -1, 0, 0], [1, 0, 1, 0, 1, 6, 1], DONE, [1, 1, 1, 1, 0, 1, 0]),
    (7, [2, 5, 0, 1], [0, 1, 3, 1], [-1, -1, 0, 0], factor(1), [1, 3, 1]),
    (7, [2, 5, 0, 1], [2, 0, 5, 0, -1, 0, 0, 0, 1, 0], [1, 1, 0, 6, 0, 1, 0],
     DONE, [1, 1, 0, 6, 0, 1, 0] + [-1, 0, 0]),  # the calculator's
    (7, [2, 5, 0, 1], [1, -1, 0, 0, 1, 3, 1], [2, -1, 0, 0, -1, 0, 0, 1, 4, 1],
     factor(1), [1, 3, 1]),  # a's leading coefficient first, and then b's
    (7, [2, 5, 0, 1], [2, -1, 0, 0, -1, 0, 0, 1, 4, 1], [1, -1, 0, 0, 1, 3, 1],
     factor(1), [1, 4, 1]),
]


def left(answer, written, slot, buffer, needed, work):
    """The slot, the factor buffer and the work store that an answer leaves."""
    cleared = [0] * needed + work[needed:]
    return (written, buffer, cleared) if answer == DONE else (slot, written, cleared)


def inverses_by_hand(check):
    """C5, C6, C7 and C12, and others over the same rings, every word."""
    for p, tower, c, answer, written in INVERSES:
        levels = 1 if tower else 0
        for word, more in [(9, 0), (-1, 0), (4, 3)]:
            r, buffer, work = [word] * len(c), [8] * len(c), [word] * (20 * levels + more)
            found = element_inverse(p, levels, four((2,) * levels), tower, c, r,
                                    buffer, work)
            expected = left(answer, written, r, buffer, 20 * levels, work)
            check(found == (answer, (), (tower, c, *expected)), "inverse", p, tower, c)


def gcds_by_hand(check):
    """C8, C9 and C10, the calculator's `gcd`, and the order of a and b, every word."""
    for p, tower, a, b, answer, written in GCDS:
        levels, size = (1, 3) if tower else (0, 1)
        needed = (a[0] + 1) * size + (b[0] + 1) * size + 2 + 2 * size + 20 * levels
        room = len(written) if answer == DONE else 1 + 3 * size
        for word, more in [(9, 0), (-1, 0), (4, 3)]:
            g, buffer, work = [word] * room, [8] * size, [word] * (needed + more)
            found = polynomial_gcd(p, levels, four((2,) * levels), tower, a, b, g,
                                   buffer, work)
            expected = left(answer, written, g, buffer, needed, work)
            check(found == (answer, (), (tower, a, b, *expected)), "GCD", p, tower, a, b)


# Numbers. Over d = (2, 2): S_2 = 7, I(2) = 70, and 70 + 14 + 2 for a GCD of zeros.

def order_of_inverse(check):
    """Each number before the later ones; 7 before 9, and 20 words for T7."""
    def gives(number, *arguments):
        check(kept(element_inverse, arguments, refused(number)), number, arguments)

    tower, where = power_words((2, 2)), (2, 2, four((2, 2)))
    zero, bad, ok, long = [-1, -1, 0, 0, -1, 0, 0], [7] * 7, [9] * 7, [7] * 8
    gives(9, *where, tower, zero, ok, ok, [7] * 70)
    gives(7, *where, tower, zero, ok, ok, [7] * 69)
    gives(5, *where, tower, bad, ok, ok, [])
    for lists in [(long, ok, ok), (bad, long, ok), (bad, ok, long), (bad, [], ok)]:
        gives(4, *where, tower, *lists, [])
    gives(3, *where, tower[1:], [], [], [], [])
    gives(2, 2, 2, four((2, 1)), [], [], [], [], [])
    gives(1, 1, 5, four((2, 1)), [], [], [], [], [])
    gives(9, 6, 0, four(()), [], [0], [7], [7], [])


def order_of_gcd(check):
    """Each number before the later ones, over all slots before the next."""
    def gives(number, *arguments):
        check(kept(polynomial_gcd, arguments, refused(number)), number, arguments)

    tower, where = power_words((2, 2)), (2, 2, four((2, 2)))
    zero, bad, ok, long = zero_slot((2, 2), 1), [1] + [7] * 14, [9] * 7, [7] * 16
    gives(7, *where, tower, zero, zero, [7] * 8, ok, [7] * 85)
    gives(7, *where, tower, SLOT_2_2, zero, [7] * 15, ok, [7] * 99)
    gives(6, *where, tower, SLOT_2_2, zero, [7] * 8, ok, [])
    gives(6, *where, tower, zero, SLOT_2_2, [7] * 8, ok, [])
    gives(5, *where, tower, SLOT_2_2, bad, [7] * 8, ok, [])
    gives(5, *where, tower, bad, zero, [7] * 8, ok, [])
    for lists in [(long, bad, [7] * 8, ok), (bad, long, [7] * 8, ok),
                  (bad, bad, long, ok), (bad, bad, [7] * 8, [7] * 8)]:
        gives(4, *where, tower, *lists, [])
    gives(3, *where, tower[:-1], [], [], [], [], [])
    gives(2, 2, 2, four((2, 1)), [], [], [], [], [], [])
    gives(1, 1, 2, four((2, 1)), [], [], [], [], [], [])
    done = polynomial_gcd(*where, tower, zero, zero, [7] * 8, ok, [7] * 86)
    check(done == (DONE, (), (tower, zero, zero, zero, ok, [0] * 86)), "86 words")
