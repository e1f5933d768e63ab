"""What the groups of test lines share: edges, degrees and damaged words.

A group gives cases of one call, each the tuple of the call's arguments: an int
is one number, a tuple the four degrees, a list a lent list.
"""

import itertools

from second import samples, words
from second.ring import Tower, is_zero, top_level

LEAST, MOST = -2 ** 63, 2 ** 63 - 1

# 'p, N and the degrees are any signed 64-bit numbers on arrival.'
MODULI = [LEAST, -1, 0, 1, 2, 2147483647, 2147483648, MOST]
LEVELS = [LEAST, -1, 0, 1, 2, 3, 4, 5, MOST]
DEGREES = [LEAST, -1, 0, 1, 2, 64, 65, MOST]

# Some degrees of a tower for each N, small enough to damage every word of it.
SMALL_DEGREES = [(), (2,), (3,), (2, 2), (3, 2), (2, 2, 2), (2, 2, 2, 2)]

# What a list that is not read may hold: words of elements, and words of nothing.
RUBBISH = [-1] * 8 + [0] * 6 + [1] * 4 + [2, 3, 4, 5, 6, 9, 17, -2, -3, -8, LEAST, MOST]


def four(degrees):
    """The degrees as 'four numbers', 'the others are 0'."""
    return tuple(degrees) + (0,) * (4 - len(degrees))


def degrees_up_to(size):
    """All degrees of 1 to 4 levels, each 2 to 64, with S_N at most size."""
    found, rows = [], [()]
    for _ in range(4):
        rows = [row + (d,) for row in rows for d in range(2, 65)
                if words.sizes(row + (d,))[-1] <= size]
        found += rows
    return found


def degrees_of_size(size):
    """Those with S_N equal to size."""
    return [row for row in degrees_up_to(size) if words.sizes(row)[-1] == size]


def random_degrees(rng, largest):
    """Random degrees of 0 to 4 levels with S_N at most largest."""
    degrees = ()
    for _ in range(rng.randint(0, 4)):
        most = min(64, (largest - 1) // words.sizes(degrees)[-1])
        if most >= 2:
            degrees += (rng.randint(2, rng.randint(2, most)),)
    return degrees


def degrees_put_wrong(levels):
    """Right degrees for N = levels with each of the four at each edge in turn."""
    right = four((2,) * levels)
    for place, degree in itertools.product(range(4), DEGREES):
        yield right[:place] + (degree,) + right[place + 1:]


def large_tower(rng, p, degrees):
    """A random tower, each m_i taken at random and not as a product."""
    tower = Tower(p, ())
    for level, d in enumerate(degrees):
        m = samples.random_monic(rng, tower, level, d)
        tower = Tower(p, tower.polynomials + (m,))
    return tower


def polynomial_of_degree(rng, tower, degree):
    """A random polynomial over R_N of exactly this degree."""
    level = top_level(tower)
    if degree < 0:
        return ()
    lower = [samples.random_element(rng, tower, level) for _ in range(degree)]
    last = samples.random_element(rng, tower, level)
    while is_zero(level, last):
        last = samples.random_element(rng, tower, level)
    return tuple(lower) + (last,)


def element_not_zero(rng, tower):
    """A random element of R_N that is not zero."""
    return polynomial_of_degree(rng, tower, 0)[0]


def other_words(word, p):
    """What to put for a word: the edges, and the words beside it."""
    values = {LEAST, -2, -1, 0, 1, p - 1, p, word - 1, word + 1, MOST}
    return sorted(v for v in values if LEAST <= v <= MOST and v != word)


def each_word_replaced(right, p):
    """Every word in turn, by every other word to put for it."""
    for place, word in enumerate(right):
        for other in other_words(word, p):
            yield right[:place] + [other] + right[place + 1:]


def one_word_replaced(rng, right, p):
    """One word of many, at random."""
    place = rng.randrange(len(right))
    other = rng.choice(other_words(right[place], p))
    return right[:place] + [other] + right[place + 1:]


def neighbours_exchanged(right):
    """Two unlike words next to each other, each pair in turn."""
    for place in range(len(right) - 1):
        first, second = right[place:place + 2]
        if first != second:
            yield right[:place] + [second, first] + right[place + 2:]


def other_lengths(right):
    """Empty, one word short at either end, one long, and twice as long."""
    return [[], right[:-1], right[1:], right + [0], right + [-1], [0] + right,
            right + right]


def damaged(words, modulus):
    """The words as they are, each damaged, neighbours exchanged, cut and drawn out."""
    lists = [words]
    lists += each_word_replaced(words, modulus)
    lists += neighbours_exchanged(words)
    lists += other_lengths(words)
    return lists


def rubbish(rng, length):
    """The words that a list holds by chance which no call reads."""
    return [rng.choice(RUBBISH) for _ in range(length)]
