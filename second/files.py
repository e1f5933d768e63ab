"""Files of this repository: read, and written or compared by what makes them."""

import argparse
import os

ROOT = os.path.dirname(os.path.dirname(os.path.abspath(__file__)))


def contents(path):
    """The bytes of a file, by its path from the root; none where it is not there."""
    path = os.path.join(ROOT, path)
    if not os.path.exists(path):
        return None
    with open(path, "rb") as file:
        return file.read()


def write(path, data):
    """Puts the bytes into the file."""
    path = os.path.join(ROOT, path)
    os.makedirs(os.path.dirname(path), exist_ok=True)
    with open(path, "wb") as file:
        file.write(data)


def write_or_compare(folder, made):
    """The program that writes stdin and stdout of a folder: its exit status.

    made() gives their bytes; with --check they are compared only.
    """
    parser = argparse.ArgumentParser(
        description=f"Writes {folder}/stdin and {folder}/stdout.")
    parser.add_argument("--check", action="store_true",
                        help="write nothing; exit 1 where a file differs")
    check = parser.parse_args().check
    paths = [f"{folder}/stdin", f"{folder}/stdout"]
    other = [(path, data) for path, data in zip(paths, made())
             if contents(path) != data]
    for path, data in other:
        if not check:
            write(path, data)
        print("differs:" if check else "changed:", path)
    if not other:
        print("unchanged")
    return 1 if check and other else 0
