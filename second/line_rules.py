"""Lines of the calculator that are hard to read: each rule of a line, kept and broken.

A group gives lines without their line ends. Before and after a line to try, other
lines set modulo 7 the element a = 3 and the slot b, and ask what is there: `inv` gives
5 and `gcd` 4 where the line has changed nothing.
"""

import itertools

from second.calculator import LINE_BYTES, LINE_WORDS
from second.cases import LEAST, MOST


def line(*fields):
    """Names and numbers, parted by tabs."""
    return "\t".join(map(str, fields)).encode("ascii")


OPERATIONS = [line("gcd", "a", "b"), line("div", "a", "b"), line("mul", "a", "b"),
              line("inv", "a")]

BEFORE = [line("field", 7), line("poly", "a", 3), line("poly", "b", 0, 1)]
AFTER = [line("inv", "a"), line("gcd", "a", "b")]

# One readable line of each kind.
READABLE = [line("field", 5), line("ext", 2, 5, 0, 1), line("poly", "a", 4),
            line("poly", "b", 0, 2)] + OPERATIONS


def tried(lines):
    """Each line between those that set and those that ask."""
    for other in lines:
        yield from [*BEFORE, other, *AFTER]


# What is missing.

def before_any_field():
    """`missing` without a field; `ext` and `poly` 'need a field before them'."""
    yield from OPERATIONS
    for unreadable in (READABLE[1], READABLE[2], line("field"), b""):
        yield from [unreadable, *OPERATIONS]


def missing_operands():
    """Each operation without a, without b, without both; then with what it needs."""
    slots = [line("poly", "a", 1, 2, 1), line("poly", "b", 1, 3, 1)]
    for given in ([], slots[:1], slots[1:], slots, [line("poly", "a", 3)]):
        yield from [line("field", 7), *given, *OPERATIONS]
    for p in (-1, 1, 2147483648):
        for given in ([], slots[:1], slots[1:], slots):
            yield from [line("field", p), *given, *OPERATIONS]


def operands_dropped():
    """`field` and `ext` drop a and b; an unreadable one, and a fifth `ext`, do not."""
    slots = BEFORE[1:]
    for dropping in READABLE[:2]:
        yield from [line("field", 7), *slots, dropping, *OPERATIONS]
        yield from [slots[0], *OPERATIONS, slots[1], *OPERATIONS]
        yield from [dropping + b"\t", *OPERATIONS]
    yield line("field", 7)
    for level in range(5):
        yield from [*slots, line("ext", 2, 5, 0, 1), *OPERATIONS]
        yield from [*slots, line("ext"), *OPERATIONS]


# Names and fields.

def names():
    """Names that are none, and operations with other operands than theirs."""
    texts = ["fields\t5", "fiel\t5", "f", "extend\t2", "polynomial\ta\t4", "pol\ta\t4",
             "gcdd\ta\tb", "gc\ta\tb", "add\ta\tb", "sum\ta\tb", "quit", "#", "-", "7",
             "a", "gcd,a,b", "inv(a)"]
    texts += ["field", "field\t5\t5", "field\t5\t0", "field\ta", "field\ta\t5", "ext",
              "ext\ta", "ext\ta\t2\t5\t0\t1", "poly", "poly\t4", "poly\ta", "poly\tb",
              "poly\tc\t4", "poly\tab\t4", "poly\ta\tb\t4", "poly\tb\ta", "poly\t4\ta"]
    operands = ["", "a", "b", "aa", "ab", "ba", "bb", "aab", "abb", "c", "ac", "3", "A",
                "aB"]
    for name, letters in itertools.product(("gcd", "div", "mul", "inv"), operands):
        texts.append("\t".join([name, *letters]))
    yield from tried(text.encode("ascii") for text in texts)


def damages(good):
    """A readable line with one fault, of many kinds."""
    for byte in (b"\t", b" ", b"\r", b"\0", b"\v", b"\f", b"\x7f", b"\x80", b"\xff",
                 b"\xc2\xa0", b"\xe2\x80\x8b", b"\xef\xbb\xbf", b"'", b",", b";"):
        yield from [byte + good, good + byte]
        for at in [at for at, other in enumerate(good) if other == 9]:
            yield good[:at] + byte + good[at:]
            yield good[:at] + byte + good[at + 1:]
    yield from [good.upper(), good.capitalize(), good.swapcase(), good[1:], good[:-1],
                good[:1] + good, good + good[-1:], good + good, good + b"\t" + good]
    yield from [good + b"\t" + more for more in (b"0", b"a", b"b", b"x", b"#", b"-")]


def damaged():
    """'Other lines .. print `unreadable` .. and change nothing.'"""
    for good in READABLE:
        yield from tried([good, *damages(good)])


def every_byte():
    """Each byte that a line can have: alone, for a tab, and behind a number."""
    for byte in [bytes([value]) for value in range(256) if value != 10]:
        yield from [byte, b"inv" + byte + b"a", b"gcd\ta\tb" + byte]
        yield from tried([b"poly\ta\t" + byte, b"poly\ta\t4" + byte,
                          b"poly\t" + byte + b"\t4"])


# Numbers.

NUMBERS = [
    b"0", b"00", b"-0", b"-00", b"5", b"05", b"007", b"0000000005", b"00000000005",
    b"-0000000005", b"-00000000005", b"-0000000000", b"-00000000000", b"0000000000",
    b"-5", b"-1", b"1", b"2", b"6", b"7", b"+1", b"+0", b"-", b"--5", b"-+5", b"5-",
    b"- 5", b" 5", b"5 ", b"1 2", b"5.", b"5.0", b".5", b"1e1", b"0x5", b"0b1", b"0o5",
    b"5L", b"5u", b"1_0", b"1,0", b"1'0", b"5/1", b"(5)", b"", b"a", b"nan", b"inf",
    b"999999999", b"1000000000", b"2147483646", b"2147483647", b"2147483648",
    b"4294967295", b"4294967296", b"9999999999", b"-9999999999", b"10000000000",
    b"-10000000000", b"99999999999", b"4294967301", b"18446744073709551621",
    b"-18446744073709551611", str(LEAST).encode(), str(MOST).encode(),
    b"-2147483648", b"-2147483649", b"1" * 40, b"0" * 40, "\u0665".encode(),
    "\uff15".encode(), "\u22125".encode(), "\u00b2".encode(), "5\u00a0".encode()]


def numbers():
    """'an optional minus and 1 to 10 digits', in each place of each line."""
    for number in NUMBERS:
        yield from tried([b"field\t" + number, b"poly\ta\t" + number,
                          b"poly\ta\t" + number + b"\t4", b"poly\tb\t0\t" + number,
                          b"poly\t" + number + b"\t4"])
        for words in (number, number + b"\t5\t0\t1", b"2\t5\t" + number + b"\t1"):
            yield from [BEFORE[0], BEFORE[2], b"ext\t" + words,
                        line("poly", "a", 1, 6, 1), *AFTER]


# Lengths.

def most_words():
    """'at most 512 words': 511, 512 and 513, of one digit and of 11 bytes each."""
    for count in (LINE_WORDS - 1, LINE_WORDS, LINE_WORDS + 1):
        for word in (b"\t0", b"\t-9999999999"):
            yield from tried(start + word * count
                             for start in (b"poly\ta", b"poly\tb", b"ext"))
    yield from tried([b"poly\ta" + b"\t1" * 511 + b"\tx",
                      b"poly\ta" + b"\t1" * 512 + b"\t",
                      b"ext" + b"\t2" * 512 + b"\tx", b"field" + b"\t7" * 512])


def most_bytes():
    """'at most 8,192 bytes': one line with one number, and its end is no other line."""
    for count in (LINE_BYTES - 1, LINE_BYTES, LINE_BYTES + 1):
        yield from tried([b"x" * count, b"\t" * count, b"\0" * count,
                          b"poly\ta\t" + b"0" * (count - 7),
                          b"inv\ta" + b" " * (count - 5)])
    for count in (4096, LINE_BYTES, LINE_BYTES + 1, 2 * LINE_BYTES):
        yield from tried([b"x" * count + b"inv\ta", b"x" * count + b"\tpoly\ta\t4"])
    yield from tried([b"x" * 65536 + b"inv\ta"])


def empty_lines():
    """'empty ones too': some in a row, and the number goes on."""
    yield from tried([b""] * 3)
    yield from [b""] * 12 + AFTER


RULES = [before_any_field, missing_operands, operands_dropped, names, damaged,
         every_byte, numbers, most_words, most_bytes, empty_lines]
