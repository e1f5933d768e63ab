"""Draws the pictures of the documentation: docs/crates.svg, from crates.txt, and docs/words.svg.

Run: python3 docs/pictures.py, or with --check to compare only; then the exit status is 1 where a file differs.
"""

import os
import sys

HERE = os.path.dirname(os.path.abspath(__file__))
ROOT = os.path.dirname(HERE)

STYLE = ('font-family="sans-serif" font-size="14" text-anchor="middle" '
         'stroke-linecap="round"')


def picture(width, height, parts):
    """A picture of this size."""
    head = (f'<svg xmlns="http://www.w3.org/2000/svg" width="{width}" height="{height}" '
            f'viewBox="0 0 {width} {height}" {STYLE}>')
    ground = f'<rect width="{width}" height="{height}" fill="#ffffff"/>'
    return "\n".join([head, ground] + parts + ["</svg>", ""])


def box(x, y, width, height, text, fill):
    """A box with a text in it."""
    return (f'<rect x="{x}" y="{y}" width="{width}" height="{height}" rx="4" fill="{fill}" '
            f'stroke="#333333"/>'
            f'<text x="{x + width / 2:g}" y="{y + height / 2 + 5:g}">{text}</text>')


def label(x, y, text, size=13):
    return f'<text x="{x:g}" y="{y:g}" font-size="{size}" fill="#333333">{text}</text>'


def line(x1, y1, x2, y2):
    return f'<path d="M{x1:g} {y1:g} L{x2:g} {y2:g}" stroke="#999999" fill="none"/>'


# ---- the crates

def crates():
    """Each crate of crates.txt and the crates of the repository that it names."""
    named = {}
    with open(os.path.join(ROOT, "crates.txt"), encoding="utf-8") as file:
        for text in file:
            text = text.split("#")[0].strip()
            if text:
                name, below = text.split(":")
                named[name.split()[0]] = below.split()
    return {name: [b for b in below if b in named] for name, below in named.items()}


def direct(named):
    """The crates that stand directly below each: those that no other one below it reaches."""
    def reached(name):
        return {b for below in named[name] for b in reached(below) | {below}}
    return {name: [b for b in below if not any(b in reached(o) for o in below)]
            for name, below in named.items()}


def crates_picture():
    """A box for each crate, above the crates that it stands on."""
    named = crates()
    rank = {}
    for name in named:
        rank[name] = 1 + max([rank[b] for b in named[name]], default=-1)
    rows = [[n for n in named if rank[n] == r] for r in range(max(rank.values()) + 1)]
    wide, high, apart, between = 120, 34, 24, 34
    width = max(len(row) for row in rows) * (wide + apart) + apart
    height = len(rows) * (high + between) + between
    place = {}
    for r, row in enumerate(rows):
        left = (width - len(row) * (wide + apart) + apart) / 2
        for k, name in enumerate(row):
            place[name] = (left + k * (wide + apart), height - (r + 1) * (high + between))
    lines = [line(place[n][0] + wide / 2, place[n][1] + high, place[b][0] + wide / 2, place[b][1])
             for n, below in direct(named).items() for b in below]
    programs = {n for n in named if os.path.exists(os.path.join(ROOT, "crates", n, "src", "main.rt"))}
    boxes = [box(x, y, wide, high, name, "#f3e3c3" if name in programs else "#d9e6f2")
             for name, (x, y) in place.items()]
    return picture(width, height, lines + boxes)


# ---- how words hold a polynomial

def row_of_words(x, y, words, fills):
    """Words side by side."""
    return [box(x + 40 * k, y, 40, 32, word, fill) for k, (word, fill) in enumerate(zip(words, fills))]


def words_picture():
    """x² + (z + 3) over p = 7, m_1 = z² + 5, in a slot of four coefficients."""
    degree, number, rest = "#f3e3c3", "#d9e6f2", "#eeeeee"
    words = [2, 1, 3, 1, -1, 0, 0, 0, 1, 0, -1, 0, 0]
    fills = [degree] + [degree, number, number] * 3 + [rest] * 3
    parts = [label(310, 28, "x² + (z + 3) in a slot of four coefficients; d_1 = 2, so S_1 = 3", 15)]
    parts += row_of_words(50, 70, words, fills)
    parts.append(label(70, 60, "degree"))
    for k, text in enumerate(["z + 3", "0·x", "1·x²", "rest: zero"]):
        left = 90 + 120 * k
        parts.append(f'<path d="M{left + 4} 110 V118 H{left + 116} V110" stroke="#333333" fill="none"/>')
        parts.append(label(left + 60, 136, text))
    parts += row_of_words(90, 190, [1, 3, 1], [degree, number, number])
    parts += [line(92, 140, 92, 186), line(208, 140, 208, 186)]
    for k, text in enumerate(["degree in z", "3", "1·z"]):
        parts.append(label(110 + 40 * k - (14 if k == 0 else 0), 244, text, 12))
    parts.append(label(430, 200, "An element: its degree word and d_1 numbers,"))
    parts.append(label(430, 220, "lowest first. Zero is -1 0 0."))
    return picture(620, 265, parts)


def main():
    check = sys.argv[1:] == ["--check"]
    if sys.argv[1:] and not check:
        sys.exit(__doc__)
    differs = False
    for name, text in [("crates.svg", crates_picture()), ("words.svg", words_picture())]:
        path = os.path.join(HERE, name)
        old = ""
        if os.path.exists(path):
            with open(path, encoding="utf-8") as file:
                old = file.read()
        differs = differs or old != text
        print(f"docs/{name}: " + ("unchanged" if old == text else "differs" if check else "written"))
        if old != text and not check:
            with open(path, "w", encoding="utf-8") as file:
                file.write(text)
    sys.exit(1 if check and differs else 0)


if __name__ == "__main__":
    main()
