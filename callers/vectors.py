"""Makes the calls that test lines ask for, through the shared library, and prints the answers.

Run: python3 callers/vectors.py target/callers/libmausvioline.so < crates/vectors/stdin
It prints the lines of crates/vectors/stdout. callers/vectors.c says how a line reads.
"""

import ctypes
import sys

Word = ctypes.c_int64
Count = ctypes.c_size_t
FACTOR = 100

# A call's name in a line, its name in the library, and how many lists it takes.
CALLS = {
    "tower": ("check_tower", 1), "slot": ("check_slot", 2), "sum": ("sum", 3),
    "difference": ("difference", 3), "product": ("product", 5),
    "division": ("division", 5), "inverse": ("inverse", 5), "gcd": ("gcd", 6),
}


class Line:
    """The numbers of a line, taken from the front."""

    def __init__(self, fields):
        self.numbers = iter([int(field) for field in fields])

    def number(self):
        return next(self.numbers)

    def array(self, count):
        return (Word * count)(*[self.number() for _ in range(count)])

    def list(self):
        return self.array(self.number())


def lent(lists):
    """A list as C takes it: where it stands, and its length; no words, no place."""
    for words in lists:
        yield words if len(words) else None
        yield Count(len(words))


def told(answer):
    if answer == 0:
        return ["done"]
    return ["refused", answer] if answer < FACTOR else ["factor", answer - FACTOR]


def list_told(words):
    return [len(words)] + list(words)


def fraction_told(library, line):
    numbers, residue = list(line.array(3)), ctypes.c_uint64(0)
    answer = library.mausvioline_fraction(*map(Word, numbers), ctypes.byref(residue))
    return told(answer) + [residue.value]


def sizes_told(library, line):
    levels, degrees, a, b = line.number(), line.array(4), line.number(), line.number()
    sizes = (Count * 3)()
    answer = library.mausvioline_work_sizes(Word(levels), degrees, Word(a), Word(b), sizes)
    return told(answer) + list(sizes)


def view_told(library, over, lists):
    start, count = Count(), Count()
    slot = library.mausvioline_leading_view(
        *over, *lent(lists), ctypes.byref(start), ctypes.byref(count))
    return list_told(lists[slot][start.value:start.value + count.value] if slot else [])


def answer_told(library, name, line):
    """What a call answers, what stands beside that, and its lists afterwards."""
    if name == "fraction":
        return fraction_told(library, line)
    if name == "sizes":
        return sizes_told(library, line)
    over = Word(line.number()), Word(line.number()), line.array(4)
    call, count = CALLS.get(name, ("", 3))
    lists = [line.list() for _ in range(count)]
    if name == "view":
        answer = view_told(library, over, lists)
    else:
        answer = told(getattr(library, "mausvioline_" + call)(*over, *lent(lists)))
    return answer + [word for words in lists for word in list_told(words)]


def main():
    if len(sys.argv) != 2:
        sys.exit(__doc__)
    library = ctypes.CDLL(sys.argv[1])
    for name in ["fraction", "work_sizes", "leading_view"] + [c for c, _ in CALLS.values()]:
        getattr(library, "mausvioline_" + name).restype = Count
    for text in sys.stdin:
        name, *fields = text.rstrip("\n").split("\t")
        print(name, *answer_told(library, name, Line(fields)), sep="\t")


if __name__ == "__main__":
    main()
