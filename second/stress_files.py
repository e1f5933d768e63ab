"""Files for the calculator, one for each seed: any bytes, valid, and nearly valid."""

import random

from second import cases, ring, samples, splits, words
from second.calculator import LINE_BYTES, LINE_WORDS
from second.cases_gcd import monic_multiples
from second.line_cases import Case, extensions_of, lines_asking
from second.line_rules import NUMBERS, OPERATIONS, READABLE

# Bytes and fields that lines are made of, and some that they are not.
ALPHABET = [b"\t"] * 6 + [b"\n"] * 3 + [bytes([byte]) for byte in
                                        b"0123456789-+abgcd \r\0\xff"]
STARTS = [b"field", b"ext", b"poly\ta", b"poly\tb", b"gcd", b"div\ta", b"mul", b"inv"]
FIELDS = [b"a", b"b", b"0", b"1", b"2", b"-1", b"7", b"", b" "] + NUMBERS


def ended(rng, lines):
    """The lines, with or without the last line end."""
    return b"\n".join(lines) + rng.choice((b"", b"\n"))


# Random bytes.

def any_bytes(rng):
    """Bytes at random, of all or of those that lines are made of."""
    count = rng.choice((0, 1, 10, 1000, 30000))
    if rng.random() < 0.3:
        return rng.randbytes(count)
    return b"".join(rng.choices(ALPHABET, k=count))


def any_fields(rng):
    """Fields at random behind a start, and a readable line now and then."""
    lines = []
    for _ in range(rng.randint(1, 300)):
        if rng.random() < 0.6:
            lines.append(rng.choice(READABLE))
        else:
            fields = rng.choices(FIELDS, k=rng.choice((0, 1, 1, 2, 4)))
            lines.append(b"\t".join([rng.choice(STARTS), *fields]))
    return ended(rng, lines)


def long_line(rng):
    """About 512 words, or about 8,192 bytes, or far more, and perhaps a line behind."""
    if rng.random() < 0.5:
        word = b"\t" + rng.choice(NUMBERS[:20])
        return rng.choice(STARTS) + word * (LINE_WORDS + rng.randint(-2, 2))
    count = rng.choice((LINE_BYTES, LINE_BYTES, 2 * LINE_BYTES, 65536, 200000))
    filling = rng.choice(ALPHABET).replace(b"\n", b"0")
    return filling * (count + rng.randint(-2, 2)) + rng.choice((b"", *READABLE))


def long_lines(rng):
    """Long lines among readable ones."""
    return ended(rng, [long_line(rng) if rng.random() < 0.2 else rng.choice(READABLE)
                       for _ in range(rng.randint(1, 40))])


# Rings, elements and polynomials.

def random_ring(rng):
    """A tower, and elements of it that are made to show a factor, if it falls apart."""
    p = rng.choice(samples.MODULI + [rng.randrange(2, 2 ** 31)])
    degrees = cases.random_degrees(rng, rng.choice((7, 20, 60)))
    kind = rng.choice(("field", "powers", "split", "any"))
    if kind == "split":
        split = splits.split_tower(rng, p, degrees)
        return split.tower, list(splits.all_showing(rng, split))
    if kind == "field":
        p = rng.choice((3, 7, 10007, 2147483647))
        return samples.field_tower(p, len(degrees)), []
    if kind == "powers":
        return samples.power_tower(p, degrees), []
    return samples.random_tower(rng, p, degrees), []


def random_element(rng, tower, showing):
    """An element that shows a factor, if there is one, or any other."""
    if showing and rng.random() < 0.5:
        return rng.choice(showing)
    return samples.random_element(rng, tower, ring.top_level(tower))


def random_polynomials(rng, tower, showing):
    """Two polynomials: multiples of a third, one of them perhaps scaled, or any."""
    level = ring.top_level(tower)
    if rng.random() < 0.3:
        return [samples.random_polynomial(rng, tower, level, 5) for _ in range(2)]
    common = samples.random_monic(rng, tower, level, rng.randrange(4))
    both = monic_multiples(rng, tower, common, rng.randrange(3), rng.randrange(3))
    if rng.random() < 0.5:
        place, scale = rng.randrange(2), random_element(rng, tower, showing)
        both[place] = ring.poly_scale(tower, level, scale, both[place])
    return both


def random_operands(rng, tower, showing):
    """The words of an element a, or of slots a and b, and operations that suit them."""
    degrees, level = ring.degrees(tower), ring.top_level(tower)
    if rng.random() < 0.4:
        c = random_element(rng, tower, showing)
        return {"a": words.element_to_words(degrees, level, c)}, OPERATIONS[3:]
    slots = [words.slot_to_words(degrees, f, max(len(f), 1) + rng.choice((0, 0, 1)))
             for f in random_polynomials(rng, tower, showing)]
    return dict(zip("ab", slots)), OPERATIONS[:3]


# Cases, each of whose numbers and lists is wrong with a chance.

def maybe_wrong(rng, chance, p, part):
    """The words, or with this chance one of them replaced, dropped or doubled."""
    if rng.random() >= chance:
        return part
    place = rng.randrange(len(part))
    return rng.choice((cases.one_word_replaced(rng, part, p),
                       part[:place] + part[place + 1:],
                       part[:place + 1] + part[place:]))


def random_cases(rng, chance):
    """Some rings, and some operands over each."""
    for _ in range(rng.randint(1, 8)):
        tower, showing = random_ring(rng)
        p, degrees = tower.modulus, ring.degrees(tower)
        said = rng.choice(cases.MODULI[1:-1]) if rng.random() < chance / 4 else p
        extensions = extensions_of(degrees, words.tower_to_words(tower))
        extensions = tuple(maybe_wrong(rng, chance, p, part) for part in extensions)
        for _ in range(rng.randint(1, 6)):
            operands, suiting = random_operands(rng, tower, showing)
            operands = {name: maybe_wrong(rng, chance, p, part)
                        for name, part in operands.items()}
            asked = rng.choices([*suiting] * 4 + OPERATIONS, k=3)
            yield Case(said, extensions, operands, asked)


def random_lines(rng, chance):
    """The lines of such cases."""
    return list(lines_asking(random_cases(rng, chance)))


# Valid and nearly valid files.

def valid(rng):
    """Every line is readable and every list in form."""
    return ended(rng, random_lines(rng, 0))


def wrong_words(rng):
    """Every line is readable; some lists have a wrong word or a wrong length."""
    return ended(rng, random_lines(rng, 0.1))


def wrong_lines(rng):
    """Some lines are dropped, doubled, exchanged, or put between others."""
    lines = random_lines(rng, 0.02)
    for _ in range(rng.randint(1, 10)):
        place = rng.randrange(len(lines) + 1)
        lines[place:place + rng.randrange(3)] = rng.choice((
            [], [b""], [rng.choice(READABLE)], rng.choices(lines or [b""], k=1),
            lines[place:place + 1] * 2, lines[place:place + 2][::-1]))
    return ended(rng, lines)


def other_writing(rng, field):
    """A field with something before it or behind it, or another number."""
    zeros = b"0" * rng.randrange(11)
    return rng.choice((zeros + field, b"-" + zeros + field, b"+" + field, field + b"\r",
                       b" " + field, field + field, b"", rng.choice(NUMBERS)))


def wrong_fields(rng):
    """Some fields are written in another way; a number may still be the same."""
    rows = [line.split(b"\t") for line in random_lines(rng, 0)]
    for row in rng.choices(rows or [[b""]], k=rng.randint(1, 20)):
        place = rng.randrange(len(row))
        row[place] = other_writing(rng, row[place])
    return ended(rng, [b"\t".join(row) for row in rows])


def wrong_bytes(rng):
    """Some bytes are replaced, dropped, or put between others; it may be cut short."""
    data = bytearray(valid(rng))
    for _ in range(rng.randint(1, 10)):
        place = rng.randrange(len(data) + 1)
        data[place:place + rng.randrange(2)] = rng.choice(
            (b"", rng.choice(ALPHABET), rng.randbytes(1)))
    return bytes(data[:rng.choice((len(data), rng.randrange(len(data) + 1)))])


KINDS = [any_bytes, any_fields, long_lines, valid, valid, wrong_words, wrong_words,
         wrong_lines, wrong_fields, wrong_bytes]


def file_of(seed):
    """The name of a seed's kind, and its file's bytes."""
    rng = random.Random(seed)
    kind = rng.choice(KINDS)
    return kind.__name__, kind(rng)
