"""Inverses against a search through the whole ring."""

import random

from second import ring, samples
from second.ring import degree


def inverses(counter):
    """Inverses against a search through the whole ring."""
    for tower in samples.FIELDS + samples.NOT_FIELDS:
        elements = samples.all_elements(tower, ring.top_level(tower))
        every_inverse(counter, tower, elements, elements)
    rng = random.Random(4)
    for tower in samples.LARGER_NOT_FIELDS:
        elements = samples.all_elements(tower, ring.top_level(tower))
        every_inverse(counter, tower, elements, rng.sample(elements, 4))
    for tower in samples.FIELDS:
        counter.check(samples.without_factors(tower), "a field", tower)
    for tower in samples.NOT_FIELDS + samples.LARGER_NOT_FIELDS:
        counter.check(not samples.without_factors(tower), "no field", tower)


def every_inverse(counter, tower, elements, searched):
    """The answer for every element; a search through the ring for some."""
    check = counter.check
    level = ring.top_level(tower)
    one = ring.one(level)
    for c in elements:
        if ring.is_zero(level, c):
            check(counter.inverse(tower, c) == ("refused", 9), "0", tower)
            continue
        answer = counter.inverse(tower, c)
        check_inverse(check, tower, c, answer)
        check_against_gcd(counter, tower, c, answer)
        if tower in samples.FIELDS:
            check(answer[0] == "done", "always in a field", tower, c)
    for c in searched:
        found = [u for u in elements if ring.multiply(tower, level, u, c) == one]
        check(len(found) <= 1, "only one inverse", tower, c)
        answer = counter.inverse(tower, c)
        if answer[0] == "done":
            check(found == [answer[1]], "the inverse found", tower, c, found)
        else:
            check(answer[0] == "factor" or ring.is_zero(level, c),
                  "a factor", tower, c)


def check_inverse(check, tower, c, answer):
    """An inverse times c is 1; a factor is a proper one."""
    level = ring.top_level(tower)
    if answer[0] == "done":
        product = ring.multiply(tower, level, answer[1], c)
        check(product == ring.one(level), "u * c = 1", tower, c, answer)
    else:
        check(answer[0] == "factor" and answer[1] <= level
              and samples.is_proper_factor(tower, *answer[1:]),
              "a proper factor", tower, c, answer)


def check_against_gcd(counter, tower, c, answer):
    """At level i >= 1 the inverse's sequence is the GCD's on m_i and c."""
    level = ring.top_level(tower)
    if level == 0:
        return
    below = ring.part_below(tower, level - 1)
    last = counter.gcd(below, ring.tower_polynomial(tower, level), c)
    if last[0] == "done" and degree(last[1]) >= 1:
        expected = ("factor", level, last[1])
    elif last == ("done", ring.one(level)):
        expected = ("done", answer[-1])
    else:
        expected = last
    counter.check(answer == expected, "the same sequence", tower, c, answer, last)
