"""The files of examples/: what they print, and that the linkage's words are its own."""

from second import ring, words
from second.calculator import answer_all, lines_of
from second.files import contents
from second.line_rules import line
from second.ring import Tower


def examples(counter):
    """Each file prints the one beside it; `worked` is document 01's worked case."""
    for name in ("worked", "four-bar"):
        printed = answer_all(contents(f"examples/{name}.txt"))
        counter.check(printed == contents(f"examples/{name}.out"), name, printed)
    linkage(counter.check)


# The linkage of `four-bar`: ground z with z^2 = 3, crank 1, coupler and rocker 2.

def condition(p, cosine, sine):
    """(L + C) x^2 - 2 D x + (L - C) for a rocker angle, in words."""
    tower = Tower(p, ((p - 3, 0, 1),))

    def times(number, c):
        return ring.poly_scale(tower, 0, number % p, c)

    z = (0, 1)
    constant = ring.add(tower, 1, (4,), times(4, ring.multiply(tower, 1, z, cosine)))
    of_cosine = ring.add(tower, 1, times(2, z), times(4, cosine))
    return words.shortest_slot((2,), (
        ring.subtract(tower, 1, constant, of_cosine), times(-8, sine),
        ring.add(tower, 1, constant, of_cosine)))


def linkage(check):
    """The `poly` lines are the closure conditions at rocker angles of 90, 210, 120."""
    lines = lines_of(contents("examples/four-bar.txt"))
    for p, angles in [(10007, (90, 210, 120)), (11, (90, 120))]:
        half = pow(2, -1, p)
        at = {90: ((), (1,)), 210: ((0, p - half), (p - half,)),
              120: ((p - half,), (0, half))}
        check(line("field", p) in lines and line("ext", 2, p - 3, 0, 1) in lines, p)
        for angle in angles:
            held = condition(p, *at[angle])
            check(any(line("poly", name, *held) in lines for name in "ab"), p, angle)
