"""Runs a calculator and the second program on many random files, and compares them.

Run: python3 second/stress.py [--seconds S] [--seed N] COMMAND..
"""

import argparse
import os
import subprocess
import sys
import tempfile
import time

sys.dont_write_bytecode = True
sys.path.insert(0, os.path.dirname(os.path.dirname(os.path.abspath(__file__))))

from second.calculator import answer_all, lines_of
from second.stress_files import file_of

# A run of the command that takes longer than so many seconds counts as a difference.
LONGEST_RUN = 120

# Progress is told after so many seconds.
BETWEEN = 5


def arguments():
    """What the command line asks for."""
    parser = argparse.ArgumentParser(
        usage="%(prog)s [-h] [--seconds S] [--seed N] COMMAND..",
        description="Feeds one random file for each seed, N, N + 1 and so on, to "
                    "COMMAND and to the second program, and compares what they print. "
                    "Files are of random bytes, valid, or nearly valid. Where the two "
                    "differ, the seed is told, the file is put into the temporary "
                    "folder, and the exit status is 1.",
        epilog="Example: python3 second/stress.py --seconds 600 crates/calculator/out/calculator. "
               "A seed alone makes its file: --seconds 0 --seed N runs that one again.")
    parser.add_argument("--seconds", type=float, default=60, metavar="S",
                        help="start no file after so many seconds (60); the first one "
                             "always is")
    parser.add_argument("--seed", type=int, default=1, metavar="N",
                        help="the first seed (1)")
    parser.add_argument("command", nargs=argparse.REMAINDER, metavar="COMMAND..",
                        help="a calculator and its arguments")
    given = parser.parse_args()
    if not given.command:
        parser.error("COMMAND is missing")
    return given


def run(command, data):
    """What the command prints for these bytes, and what went wrong, if anything did."""
    try:
        done = subprocess.run(command, input=data, stdout=subprocess.PIPE,
                              timeout=LONGEST_RUN, check=False)
    except subprocess.TimeoutExpired:
        return b"", f"no end after {LONGEST_RUN} seconds"
    return done.stdout, f"exit status {done.returncode}" if done.returncode else ""


def first_difference(printed, expected):
    """The number of the first output line that differs, and both of its writings."""
    ours, theirs = lines_of(expected), lines_of(printed)
    place = next((k for k, both in enumerate(zip(ours, theirs)) if both[0] != both[1]),
                 min(len(ours), len(theirs)))
    return place + 1, *(lines[place] if place < len(lines) else None
                        for lines in (theirs, ours))


def tell_difference(seed, kind, data, printed, expected, wrong):
    """Says where the two differ and keeps the file."""
    path = os.path.join(tempfile.gettempdir(), f"calculator-seed-{seed}.txt")
    with open(path, "wb") as file:
        file.write(data)
    number, theirs, ours = first_difference(printed, expected)
    print(f"seed {seed} ({kind}) differs {wrong}".rstrip())
    print(f"output line {number}: COMMAND {theirs!r}, second program {ours!r}")
    print(f"input: {path}")


def main():
    """Runs seed after seed until the time is over or a difference is found."""
    given = arguments()
    start = told = time.monotonic()
    seed, total = given.seed, 0
    while seed == given.seed or time.monotonic() - start < given.seconds:
        kind, data = file_of(seed)
        expected = answer_all(data)
        printed, wrong = run(given.command, data)
        if printed != expected or wrong:
            tell_difference(seed, kind, data, printed, expected, wrong)
            return 1
        seed, total = seed + 1, total + len(data)
        if time.monotonic() - told >= BETWEEN:
            told = time.monotonic()
            print(f"{seed - given.seed} files agree, {total} bytes", file=sys.stderr)
    print(f"seeds {given.seed} to {seed - 1}: {seed - given.seed} files agree, "
          f"{total} bytes")
    return 0


if __name__ == "__main__":
    sys.exit(main())
