"""How words hold elements, slots and towers, and the sizes of the work store.

Here degrees is the tuple (d_1, .., d_N) and words are lists of ints.
'A degree word is -1 for the zero polynomial.'
"""

from second.ring import Tower, degree


def sizes(degrees):
    """'S_0 = 1 and S_i = d_i * S_(i-1) + 1', as the list S_0 to S_N."""
    result = [1]
    for d in degrees:
        result.append(d * result[-1] + 1)
    return result


def degrees_allowed(levels, four_degrees):
    """'d_1 to d_N are each 2 to 64, the others are 0'; 'S_N is at most 2,048'."""
    if not 0 <= levels <= 4:
        return False
    used, others = four_degrees[:levels], four_degrees[levels:]
    if not all(2 <= d <= 64 for d in used) or any(d != 0 for d in others):
        return False
    return sizes(used)[levels] <= 2048


# Values to words.

def block_to_words(degrees, level, f, count):
    """A degree word, then count elements of R_level, lowest first."""
    words = [degree(f)]
    for place in range(count):
        if place < len(f):
            words += element_to_words(degrees, level, f[place])
        else:
            words += zero_words(degrees, level)
    return words


def element_to_words(degrees, level, a):
    """R_0: one word; R_i: 'a degree word and then d_i elements of R_(i-1)'."""
    if level == 0:
        return [a]
    return block_to_words(degrees, level - 1, a, degrees[level - 1])


def slot_to_words(degrees, f, count):
    """'A polynomial slot of k coefficients has 1 + k * S_N words'."""
    return block_to_words(degrees, len(degrees), f, count)


def shortest_slot(degrees, f):
    """The words of the shortest slot that holds f."""
    return slot_to_words(degrees, f, max(len(f), 1))


def tower_polynomial_to_words(degrees, level, m):
    """'m_i is a degree word d_i and d_i + 1 elements of R_(i-1)'."""
    return block_to_words(degrees, level - 1, m, degrees[level - 1] + 1)


def tower_to_words(tower):
    """'The tower's words are m_N first and m_1 last; none for N = 0'."""
    degrees = tuple(degree(m) for m in tower.polynomials)
    words = []
    for level in range(len(degrees), 0, -1):
        m = tower.polynomials[level - 1]
        words += tower_polynomial_to_words(degrees, level, m)
    return words


def factor_to_words(degrees, level, value):
    """The factor buffer: 'the first S_j words', and 'its other words are 0'."""
    words = element_to_words(degrees, level, value)
    return words + [0] * (sizes(degrees)[-1] - len(words))


# Words to values. The words must be in form.

def elements_of(degrees, level, words):
    """The words behind a degree word, parted into elements of R_level."""
    size = sizes(degrees)[level]
    return [words[k:k + size] for k in range(1, len(words), size)]


def block_from_words(degrees, level, words):
    """The polynomial over R_level that a degree word and its elements hold."""
    held = elements_of(degrees, level, words)[:words[0] + 1]
    return tuple(element_from_words(degrees, level, w) for w in held)


def element_from_words(degrees, level, words):
    """The element of R_level that these words hold."""
    if level == 0:
        return words[0]
    return block_from_words(degrees, level - 1, words)


def slot_from_words(degrees, words):
    """The polynomial over R_N that a slot holds."""
    return block_from_words(degrees, len(degrees), words)


def tower_parts(degrees, words):
    """The words of m_1, .., m_N; m_i has 'S_i + S_(i-1) words'."""
    size = sizes(degrees)
    parts = []
    start = 0
    for level in range(len(degrees), 0, -1):
        end = start + size[level] + size[level - 1]
        parts.insert(0, words[start:end])
        start = end
    return parts


def tower_from_words(modulus, degrees, words):
    """The tower that these words hold."""
    parts = tower_parts(degrees, words)
    return Tower(modulus, tuple(
        block_from_words(degrees, i, part) for i, part in enumerate(parts)))


# The form test, on the words themselves.

def zero_words(degrees, level):
    """'So the zero of R_1 for d_1 = 3 is -1 0 0 0'."""
    if level == 0:
        return [0]
    return [-1] + zero_words(degrees, level - 1) * degrees[level - 1]


def one_words(degrees, level):
    """The words of 1: degree word 0, then 1 of the level below, then zeros."""
    if level == 0:
        return [1]
    rest = zero_words(degrees, level - 1) * (degrees[level - 1] - 1)
    return [0] + one_words(degrees, level - 1) + rest


def block_in_form(modulus, degrees, level, count, words):
    """A degree word from -1 to count-1, then count elements, all in form."""
    if len(words) != 1 + count * sizes(degrees)[level]:
        return False
    degree_word = words[0]
    if not -1 <= degree_word <= count - 1:
        return False
    elements = elements_of(degrees, level, words)
    if not all(element_in_form(modulus, degrees, level, w) for w in elements):
        return False
    # 'The coefficient at the degree is not zero; all above it are the zero of
    # their own level.'
    zero = zero_words(degrees, level)
    if degree_word >= 0 and elements[degree_word] == zero:
        return False
    return all(w == zero for w in elements[degree_word + 1:])


def element_in_form(modulus, degrees, level, words):
    """R_0: 'one word, 0 to p-1, with no degree word'; R_i: as a block of d_i."""
    if level == 0:
        return len(words) == 1 and 0 <= words[0] <= modulus - 1
    return block_in_form(modulus, degrees, level - 1, degrees[level - 1], words)


def slot_length_allowed(degrees, length):
    """'1 + k * S_N words, k from 1 to 256, at most 65,536 words'."""
    size = sizes(degrees)[-1]
    return ((length - 1) % size == 0 and 1 <= (length - 1) // size <= 256
            and length <= 65536)


def slot_in_form(modulus, degrees, words):
    """'a degree word from -1 to k-1, then k elements, by the same rule'."""
    if not slot_length_allowed(degrees, len(words)):
        return False
    count = (len(words) - 1) // sizes(degrees)[-1]
    return block_in_form(modulus, degrees, len(degrees), count, words)


def tower_polynomial_in_form(modulus, degrees, level, words):
    """'a degree word d_i and d_i + 1 elements of R_(i-1), the last of them 1'."""
    size, below = sizes(degrees), level - 1
    if len(words) != size[level] + size[below] or words[0] != degrees[below]:
        return False
    elements = elements_of(degrees, below, words)
    if elements[-1] != one_words(degrees, below):
        return False
    return all(element_in_form(modulus, degrees, below, w) for w in elements)


def tower_in_form(modulus, degrees, words):
    """The whole list: m_N first, m_1 last, and no word more."""
    size = sizes(degrees)
    levels = range(1, len(degrees) + 1)
    if len(words) != sum(size[i] + size[i - 1] for i in levels):
        return False
    parts = tower_parts(degrees, words)
    return all(tower_polynomial_in_form(modulus, degrees, i, parts[i - 1])
               for i in levels)


# Work words. Each recurrence takes the degrees d_1 to d_N of the level it is for.

def room(degrees, d):
    """'P(d, i) = (d + 1) * S_i + 1', i the number of degrees given."""
    return (d + 1) * sizes(degrees)[-1] + 1


def product_work(degrees):
    """'M(0) = 0, M(N) = 2 * P(2 * d_N - 2, N-1) + M(N-1)'."""
    if not degrees:
        return 0
    below = degrees[:-1]
    return 2 * room(below, 2 * degrees[-1] - 2) + product_work(below)


def inverse_work(degrees):
    """'I(0) = 0, I(N) = 5 * P(d_N, N-1) + I(N-1)'."""
    if not degrees:
        return 0
    below = degrees[:-1]
    return 5 * room(below, degrees[-1]) + inverse_work(below)


def gcd_work(degrees, degree_a, degree_b):
    """'P(deg a, N) + P(deg b, N) + 2 * S_N + I(N)'."""
    return (room(degrees, degree_a) + room(degrees, degree_b)
            + 2 * sizes(degrees)[-1] + inverse_work(degrees))


def work_sizes(levels, four_degrees, degree_a, degree_b):
    """M(N), I(N) and the GCD's number; 2, then 5 for a degree outside -1 to 255."""
    if not degrees_allowed(levels, four_degrees):
        return ("refused", 2)
    if not (-1 <= degree_a <= 255 and -1 <= degree_b <= 255):
        return ("refused", 5)
    degrees = tuple(four_degrees[:levels])
    return ("done", (product_work(degrees), inverse_work(degrees),
                     gcd_work(degrees, degree_a, degree_b)))
