"""The calculator: each rule of its lines, and its limits, by hand."""

from second import words
from second.calculator import LINE_BYTES, LINE_WORDS, WORK_WORDS, Calculator, answer_all
from second.cases import degrees_up_to
from second.files import contents


def calculator(counter):
    """Ends of input, each rule of a line, then what the operations answer."""
    inputs_and_ends(counter.check)
    for prints, rows in [(after_three, LINES), (as_written, WHOLE_INPUTS)]:
        for given, expected in rows:
            printed = prints(given)
            counter.check(printed == expected, given, printed)
    longest_lines(counter.check)
    answer_slots(counter.check)
    work_words(counter.check)


def inputs_and_ends(check):
    """'a last line needs no line end'; spaces part nothing; lines one by one."""
    for data, printed in [(b"", b""), (b"\n", b"unreadable\t1\n"),
                          (b"\n\n", b"unreadable\t1\nunreadable\t2\n"),
                          (b"inv\ta", b"inv\tmissing\n"),
                          (b"inv a", b"unreadable\t1\n"),
                          (b" inv\ta", b"unreadable\t1\n"),
                          (b"inv\ta ", b"unreadable\t1\n"),
                          (b"field\t7\npoly\ta\t3\ninv\ta", b"inv\tok\t5\n")]:
        check(answer_all(data) == printed, data)
    data = contents("examples/worked.txt")
    one_by_one = Calculator()
    parts = [one_by_one.take(line) for line in data.splitlines()]
    check(b"".join(parts) == answer_all(data), "line by line")


# Lines with a space for each tab.

def tabbed(text):
    """The bytes of lines written with spaces for tabs."""
    return text.replace(" ", "\t").encode("utf-8")


def as_written(text):
    """What the lines print, with spaces for tabs and without the last line end."""
    printed = answer_all(tabbed(text)).decode("ascii")
    return printed.replace("\t", " ").removesuffix("\n")


def after_three(line):
    """What `inv` prints for a = 3 modulo 7 after this line; 5 if it changes nothing."""
    return as_written(f"field 7\npoly a 3\n{line}\ninv a")


UNCHANGED = "unreadable 3\ninv ok 5"

LINES = [
    # Numbers.
    ("poly a 4", "inv ok 2"), ("poly a 0000000004", "inv ok 2"),
    ("poly a 00000000004", UNCHANGED), ("poly a -0", "inv refused 9"),
    ("poly a -3", "inv refused 5"), ("poly a 7", "inv refused 5"),
    ("poly a 9999999999", "inv refused 5"), ("poly a -9999999999", "inv refused 5"),
    ("poly a 10000000000", UNCHANGED), ("poly a +4", UNCHANGED),
    ("poly a -", UNCHANGED), ("poly a --4", UNCHANGED), ("poly a 4.", UNCHANGED),
    ("poly a 0x4", UNCHANGED), ("poly a 4_0", UNCHANGED), ("poly a \u0664", UNCHANGED),
    # Fields.
    ("", UNCHANGED), (" ", UNCHANGED), (" poly a 4", UNCHANGED),
    ("poly  a 4", UNCHANGED), ("poly a  4", UNCHANGED), ("poly a 4 ", UNCHANGED),
    ("poly a 4\r", UNCHANGED), ("poly a 4\0", UNCHANGED), ("poly a\v4", UNCHANGED),
    ("\ufeffpoly a 4", UNCHANGED), ("poly a 4\u00a0", UNCHANGED),
    # Names.
    ("Poly a 4", UNCHANGED), ("poly A 4", UNCHANGED), ("poly c 4", UNCHANGED),
    ("poly", UNCHANGED), ("poly a", UNCHANGED), ("poly 4", UNCHANGED),
    ("ext", UNCHANGED), ("ext x", UNCHANGED), ("field", UNCHANGED),
    ("field 5 5", UNCHANGED), ("field five", UNCHANGED), ("add a b", UNCHANGED),
    ("gcd", UNCHANGED), ("gcd a", UNCHANGED), ("gcd b a", UNCHANGED),
    ("gcd a a", UNCHANGED), ("gcd a b c", UNCHANGED), ("inv", UNCHANGED),
    ("inv b", UNCHANGED), ("inv a b", UNCHANGED), ("INV a", UNCHANGED),
    # What is dropped, and what is missing.
    ("field 7", "inv missing"), ("ext 2 5 0 1", "inv missing"),
    ("poly b 1", "inv ok 5"), ("inv a", "inv ok 5\ninv ok 5"),
    ("gcd a b", "gcd missing\ninv ok 5"), ("mul a b", "mul missing\ninv ok 5"),
    ("div a b", "div missing\ninv ok 5"), ("field 1\npoly a 4", "inv refused 1"),
]

TOWER_OF_FOUR = "field 97\n" + "\n".join(
    ["ext 2 1 0 1", "ext 2 -1 0 0 -1 0 0 0 1 0"] + ["ext 2"] * 2)

WHOLE_INPUTS = [
    # Before any `field`.
    ("gcd a b\ndiv a b\nmul a b\ninv a",
     "gcd missing\ndiv missing\nmul missing\ninv missing"),
    ("ext 2 5 0 1\npoly a 1\ngcd b a", "unreadable 1\nunreadable 2\nunreadable 3"),
    # A fifth `ext` changes nothing; two that are too short give 3, before 4.
    (TOWER_OF_FOUR + "\npoly a 1\next 2\ninv a", "unreadable 7\ninv refused 3"),
    # Which degrees: 1 before 2, S_2 = 2,081, and S_2 = 2,016.
    ("field 1\next 1\npoly a 1\ninv a", "inv refused 1"),
    ("field 7\next 64\next 32\npoly a 1\ninv a", "inv refused 2"),
    ("field 7\next 64\next 31\npoly a 1\ninv a", "inv refused 3"),
    # The words of m_2 and m_1, parted elsewhere: m_1 = z^2 + 2z, m_2 = z_2^2 + 2 z_1.
    ("field 7\next 2 -1 0 0 0 1 0 2 0 2 1\next 2 1 0\npoly a 0 1 0 2 -1 0 0\ninv a",
     "inv factor 1 1 0 1"),
    # The same words as an element and as a slot.
    ("field 7\npoly a 1 3\ninv a\npoly b 0 1\ndiv a b\npoly a 3\ndiv a b",
     "inv refused 4\ndiv refused 5\ndiv refused 4"),
    # The remainder is printed and a stays.
    ("field 7\npoly a 1 6 1\npoly b 0 1\ndiv a b\ndiv a b\nmul a b",
     "div ok 1 6 1 rem -1 0\ndiv ok 1 6 1 rem -1 0\nmul ok 1 6 1"),
    ("field 6\npoly a 1 1 2\npoly b 1 1 3\nmul a b\ngcd a b\ndiv a b",
     "mul ok 1 1 5\ngcd factor 0 2\ndiv refused 8"),
    ("field 6\npoly a -1 0 0\npoly b -1 0\ngcd a b\nmul a b\ndiv a b",
     "gcd ok -1 0\nmul ok -1 0\ndiv refused 8"),
]


def longest_lines(check):
    """512 words are read and 513 not; a line too long is one line."""
    for count, printed in [(512, "inv refused 4"), (513, "unreadable 2\ninv missing")]:
        line = "poly a" + " 1" * count
        check(as_written(f"field 7\n{line}\ninv a") == printed, count)
    for count in (LINE_BYTES, LINE_BYTES + 1, 100000):
        check(as_written("x" * count + "\ninv a") == "unreadable 1\ninv missing", count)


def slot_of_ones(degree):
    """The words of a slot with this degree over N = 0, every coefficient 1."""
    return " ".join(["1"] * (degree + 1))


def answer_slots(check):
    """Modulo 7 the longest slot has 256 coefficients: the product fills it, or is 6."""
    for degree, printed in [(128, "mul ok 255"), (129, "mul refused 6")]:
        a, b = (f"poly {name} {d} {slot_of_ones(d)}\n"
                for name, d in [("a", 127), ("b", degree)])
        answer = as_written("field 7\n" + a + b + "mul a b")
        check(answer.startswith(printed), "a full slot", degree)
    for degree, printed in [(254, "div refused 8"), (255, "div refused 6")]:
        a = f"poly a {degree} {slot_of_ones(degree)}\n"
        check(as_written("field 7\n" + a + "poly b -1 0\ndiv a b") == printed,
              "a zero divisor", degree)


def most_work(degrees):
    """The most words that a GCD of two lines' slots, and an inverse, can need."""
    highest = min(256, (LINE_WORDS - 1) // words.sizes(degrees)[-1]) - 1
    return words.gcd_work(degrees, highest, highest), words.inverse_work(degrees)


def work_words(check):
    """7 is for `gcd` alone, and only where an `ext` line has not its own polynomial."""
    rows = [(), *degrees_up_to(LINE_WORDS)]
    gcds, inverses = zip(*map(most_work, rows))
    check(max(gcds) == 9056 and max(inverses) == 7010 < WORK_WORDS, "work words")
    check(max(map(words.product_work, rows)) == 2924 < WORK_WORDS, "work words")
    lines = [degrees for degrees in rows if all(
        sum(words.sizes(degrees[:level])[-2:]) <= LINE_WORDS
        for level in range(1, len(degrees) + 1))]
    check(max(most_work(degrees)[0] for degrees in lines) == 5932, "own polynomials")
