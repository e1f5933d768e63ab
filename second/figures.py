"""The figures of document 01 about mathematics, words and sizes."""

from second import ring, sequence, words
from second.ring import Tower

T7 = Tower(7, ((5, 0, 1),))


def gcd_in_words(tower, a, b, room):
    """GCD of two slots, answered in the words of a slot or a factor buffer."""
    degrees = ring.degrees(tower)
    answer = sequence.gcd(tower, words.slot_from_words(degrees, a),
                          words.slot_from_words(degrees, b))
    if answer[0] == "done":
        return ("done", words.slot_to_words(degrees, answer[1], room))
    return factor_in_words(degrees, answer)


def inverse_in_words(tower, c):
    """Inverse of an element, answered in words."""
    degrees = ring.degrees(tower)
    level = len(degrees)
    answer = sequence.inverse(
        tower, words.element_from_words(degrees, level, c))
    if answer[0] == "done":
        return ("done", words.element_to_words(degrees, level, answer[1]))
    return factor_in_words(degrees, answer)


def factor_in_words(degrees, answer):
    """A shown factor as the words of the factor buffer; a refusal as it is."""
    if answer[0] == "factor":
        return answer[:2] + (words.factor_to_words(degrees, *answer[1:]),)
    return answer


def sizes_of_document(check):
    """S, M, I and the figures C1 to C4."""
    check(words.sizes((3, 2)) == [1, 4, 9], "S for d = (3, 2)")
    check(words.product_work((3, 2)) == 38, "M(2) = 38")
    check(words.inverse_work((3, 2)) == 90, "I(2) = 90")
    check(words.work_sizes(2, (3, 2, 0, 0), 2, -1)
          == ("done", (38, 90, 28 + 1 + 18 + 90)), "the GCD's number")
    check(words.work_sizes(2, (3, 2, 0, 0), 256, 0) == ("refused", 5), "5")
    check(words.work_sizes(2, (3, 1, 0, 0), 256, 0) == ("refused", 2), "2")
    for p, answer in [(1, ("refused", 1)), (2, ("done", 1)),
                      (2147483647, ("done", 1)), (2147483648, ("refused", 1))]:
        check(sequence.fraction(p, 1, 1) == answer, "C1", p)
    check(words.sizes((64, 31))[2] == 2016, "C2, S_2 = 2,016")
    check(words.sizes((64, 32))[2] == 2081, "C2, S_2 = 2,081")
    check(words.degrees_allowed(2, (64, 31, 0, 0)), "C2, (64, 31)")
    for bad in [(64, 32, 0, 0), (1, 2, 0, 0), (2, 65, 0, 0), (2, 2, 2, 0)]:
        check(not words.degrees_allowed(2, bad), "C2", bad)
    check(1 + 32 * 2016 == 64513, "C3, 64,513 words")
    check(words.slot_length_allowed((64, 31), 64513), "C3, 32 coefficients")
    check(not words.slot_length_allowed((64, 31), 64513 + 2016), "C3, 33")
    for degrees, length, allowed in [((), 1, False), ((), 2, True), ((), 257, True),
                                     ((), 258, False), ((2,), 5, False),
                                     ((2,), 769, True), ((2,), 772, False)]:
        check(words.slot_length_allowed(degrees, length) == allowed,
              "a slot's length", degrees, length)
    check(37 < words.product_work((3, 2)) <= 38, "C4")
    check(words.zero_words((3,), 1) == [-1, 0, 0, 0], "the zero of R_1")


def values_of_document(check):
    """The figures C5 to C12 as values."""
    six, seven, four = Tower(6, ()), Tower(7, ()), Tower(4, ((1, 1, 1),))
    check(sequence.inverse(six, 5) == ("done", 5), "C5, 5")
    check(sequence.inverse(six, 4) == ("factor", 0, 2), "C5, 4")
    check(sequence.inverse(six, 0) == ("refused", 9), "C5, 0")
    check(sequence.inverse(T7, (6, 1)) == ("done", (1, 1)), "C6")
    check(sequence.inverse(T7, (3, 1)) == ("factor", 1, (3, 1)), "C7")
    check(sequence.gcd(seven, (6, 0, 1), (1, 2, 1)) == ("done", (1, 1)), "C8")
    check(sequence.gcd(T7, ((1,), (3, 1)), ((), (1,)))
          == ("factor", 1, (3, 1)), "C9")
    check(sequence.gcd(T7, (), ()) == ("done", ()), "C10, both zero")
    other, made_monic = ((6, 1), (6, 1)), ((1,), (1,))
    check(sequence.gcd(T7, other, ()) == ("done", made_monic), "C10, b zero")
    check(sequence.gcd(T7, (), other) == ("done", made_monic), "C10, a zero")
    for pair in [(((3, 1),), ()), ((), ((3, 1),))]:
        check(sequence.gcd(T7, *pair) == ("factor", 1, (3, 1)), "C10", pair)
    check(sequence.fraction(17, -1, 5) == ("done", 10), "C11, -1/5")
    check(sequence.fraction(7, 1, 7) == ("refused", 10), "C11, 1/7")
    check(sequence.inverse(four, (1, 2)) == ("factor", 0, 2), "C12")
    check(ring.multiply(four, 1, (1, 2), (1, 2)) == (1,), "C12, own inverse")


def words_of_document(check):
    """The figures C5 to C10 and C12 as words."""
    six, seven, four = Tower(6, ()), Tower(7, ()), Tower(4, ((1, 1, 1),))
    check(inverse_in_words(six, [5]) == ("done", [5]), "C5, 5")
    check(inverse_in_words(six, [4]) == ("factor", 0, [2]), "C5, 4")
    check(inverse_in_words(T7, [1, 6, 1]) == ("done", [1, 1, 1]), "C6")
    check(inverse_in_words(T7, [1, 3, 1]) == ("factor", 1, [1, 3, 1]), "C7")
    check(gcd_in_words(seven, [2, 6, 0, 1], [2, 1, 2, 1], 3)
          == ("done", [1, 1, 1, 0]), "C8")
    a, b = [1, 0, 1, 0, 1, 3, 1], [1, -1, 0, 0, 0, 1, 0]
    check(gcd_in_words(T7, a, b, 2) == ("factor", 1, [1, 3, 1]), "C9")
    zero = [-1, -1, 0, 0, -1, 0, 0]
    check(gcd_in_words(T7, zero, zero, 2) == ("done", zero), "C10, both zero")
    check(inverse_in_words(four, [1, 1, 2]) == ("factor", 0, [2, 0, 0]), "C12")


def traps_of_document(check):
    """What is easy to get wrong: degrees of products, 1, and the order."""
    six = Tower(6, ())
    check(ring.poly_multiply(six, 0, (1, 2), (1, 3)) == (1, 5), "(2x+1)(3x+1)")
    check(not ring.is_monic(1, ((3,),)), "3 has degree 0 and is not 1")
    check(sequence.inverse(T7, (3,)) == ("done", (5,)), "degree 0, inverse")
    check(sequence.inverse(Tower(6, ((5, 0, 1),)), (3,))
          == ("factor", 0, 3), "degree 0, factor")
    # z^2 + 5 = (z + 3)(z + 4) modulo 7. The polynomial given first shows its
    # factor, also when its degree is the lower one.
    low, high = ((), (3, 1)), ((), (), (4, 1))
    check(sequence.gcd(T7, low, high) == ("factor", 1, (3, 1)), "a first")
    check(sequence.gcd(T7, high, low) == ("factor", 1, (4, 1)), "a first")
    # No swap for deg a < deg b: the first remainder is a itself.
    seven = Tower(7, ())
    check(sequence.gcd_pairs(seven, 0, (1, 1), (6, 0, 1))
          == [((1, 1), (6, 0, 1)), ((6, 0, 1), (1, 1)), ((1, 1), ())], "no swap")
    check(sequence.divide(T7, ((1,),), ((3,),)) == ("refused", 8), "not monic")
    check(sequence.divide(T7, ((1,),), ()) == ("refused", 8), "zero divisor")


def fractions(check):
    """A fraction's residue times its denominator is its numerator."""
    primes = (2, 3, 7, 11, 17, 31, 151, 331, 2147483647)  # all that divide a p below
    ends = [-2 ** 63, -2 ** 63 + 1, -8, -1, 0, 1, 5, 2 ** 63 - 1]
    for p in (2, 6, 7, 17, 2147483646, 2147483647):
        for n in ends:
            for e in ends + list(range(2, 20)):
                answer = sequence.fraction(p, n, e)
                if e <= 0 or any(p % k == 0 and e % k == 0 for k in primes):
                    check(answer == ("refused", 10), "fraction", p, n, e)
                else:
                    check(answer[0] == "done" and 0 <= answer[1] < p
                          and (answer[1] * e - n) % p == 0,
                          "fraction", p, n, e)


def run(check):
    """All figures."""
    sizes_of_document(check)
    values_of_document(check)
    words_of_document(check)
    traps_of_document(check)
    fractions(check)
