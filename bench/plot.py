"""Draws the bench's tables: time against degree, one picture for product and one for GCD.

Run: python3 bench/plot.py TABLES FOLDER, where TABLES is what the bench printed
It writes FOLDER/product.svg and FOLDER/gcd.svg: for each tower with at most one level a panel
with a line for the library, the two baselines and each stock system.
"""

import math
import os
import re
import sys

COLOURS = {"kernel": "#c0392b", "published": "#7f8c8d", "tuned": "#2c3e50",
           "FLINT": "#2980b9", "NTL": "#27ae60", "PARI": "#8e44ad"}
ROW = re.compile(r"(N = [01](?:, d = \d+)?), degree (\d+)\s+(.*)")


def tables(lines):
    """Of each operation: tower, then contender, then its points (degree, microseconds)."""
    found, operation, names = {}, None, []
    for line in lines:
        words = line.split()
        if words and words[0] in ("product", "division", "inverse", "GCD") and "kernel" in words[1:2]:
            operation = words[0].lower()
        elif operation and words[:1] == ["microseconds"]:
            names = words[2:]
        elif operation and ROW.match(line):
            tower, degree, numbers = ROW.match(line).groups()
            kernel, ratio, *others = [float(n) for n in numbers.split() if n != "-"]
            times = {"kernel": kernel, "published": kernel * ratio}
            times.update({name: kernel / other for name, other in zip(names, others)})
            for name, time in times.items():
                panel = found.setdefault(operation, {}).setdefault(tower, {})
                panel.setdefault(name, []).append((int(degree), time))
    return found


def text(x, y, words, size=12, anchor="middle", colour="#333333"):
    return (f'<text x="{x:.1f}" y="{y:.1f}" font-size="{size}" text-anchor="{anchor}" '
            f'fill="{colour}">{words}</text>')


def panel(left, top, title, lines, wide=250, high=220):
    """The lines of one tower, both scales logarithmic."""
    degrees = sorted({d for points in lines.values() for d, _ in points})
    times = [t for points in lines.values() for _, t in points]
    low, high_time = math.floor(math.log10(min(times))), math.ceil(math.log10(max(times)))

    def at(degree, time):
        across = math.log(degree / degrees[0]) / math.log(degrees[-1] / degrees[0])
        up = (math.log10(time) - low) / (high_time - low)
        return left + across * wide, top + high - up * high

    parts = [f'<rect x="{left}" y="{top}" width="{wide}" height="{high}" fill="none" stroke="#999999"/>',
             text(left + wide / 2, top - 8, title, 14)]
    for power in range(low, high_time + 1):
        _, y = at(degrees[0], 10.0 ** power)
        parts.append(f'<path d="M{left} {y:.1f} H{left + wide}" stroke="#eeeeee"/>')
        parts.append(text(left - 6, y + 4, f"{10.0 ** power:g}", 11, "end"))
    for degree in degrees:
        parts.append(text(at(degree, 10.0 ** low)[0], top + high + 16, degree, 11))
    for name, points in lines.items():
        path = " L".join(f"{x:.1f} {y:.1f}" for x, y in (at(*point) for point in sorted(points)))
        width = 2.5 if name == "kernel" else 1.5
        parts.append(f'<path d="M{path}" fill="none" stroke="{COLOURS[name]}" stroke-width="{width}"/>')
    return parts


def picture(operation, towers):
    """The panels side by side, and below them what the colours mean."""
    wide, high = 320, 270
    parts = [text(wide * len(towers) / 2, 22, f"{operation}: microseconds against degree", 16)]
    for k, (tower, lines) in enumerate(towers.items()):
        parts += panel(50 + k * wide, 62, tower, lines)
    for k, name in enumerate(next(iter(towers.values()))):
        x = 60 + k * 130
        parts.append(f'<path d="M{x} {high + 52} h26" stroke="{COLOURS[name]}" stroke-width="2.5"/>')
        parts.append(text(x + 32, high + 56, name, 13, "start"))
    width, height = wide * len(towers) + 20, high + 75
    head = (f'<svg xmlns="http://www.w3.org/2000/svg" width="{width}" height="{height}" '
            f'viewBox="0 0 {width} {height}" font-family="sans-serif">')
    ground = f'<rect width="{width}" height="{height}" fill="#ffffff"/>'
    return "\n".join([head, ground] + parts + ["</svg>", ""])


def main():
    if len(sys.argv) != 3:
        sys.exit(__doc__)
    with open(sys.argv[1], encoding="utf-8") as file:
        found = tables(file)
    for operation in ("product", "gcd"):
        if operation not in found:
            sys.exit(f"plot: no table of {operation} in {sys.argv[1]}")
        path = os.path.join(sys.argv[2], operation + ".svg")
        with open(path, "w", encoding="utf-8") as file:
            file.write(picture("GCD" if operation == "gcd" else operation, found[operation]))
        print(path)


if __name__ == "__main__":
    main()
