"""Runs every example of docs/MANUAL.md and compares what it prints with what stands under it.

Run: python3 callers/manual.py FOLDER COMPILER [RUNNER]...
FOLDER has libmausvioline.a and takes the programs; a RUNNER, as an emulator, runs them.
The calculator's examples go to the second program's calculator.
"""

import os
import re
import subprocess
import sys

ROOT = os.path.dirname(os.path.dirname(os.path.abspath(__file__)))
EXAMPLE = re.compile(r"```(c head|c|calculator)\n(.*?)```\n(?:```text\n(.*?)```\n)?", re.S)


def main():
    if len(sys.argv) < 3:
        sys.exit(__doc__)
    folder, compiler, runner = sys.argv[1], sys.argv[2].split(), sys.argv[3:]
    with open(os.path.join(ROOT, "docs", "MANUAL.md"), encoding="utf-8") as manual:
        examples = EXAMPLE.findall(manual.read())
    head, count = "", 0
    for kind, text, expected in examples:
        if kind == "c head":
            head = text
            continue
        if kind == "c":
            printed = run_c(head, text, folder, compiler, runner)
        else:
            printed = run([sys.executable, os.path.join(ROOT, "second", "calculator.py")], text)
        count += 1
        if printed != expected:
            sys.exit(f"manual: example {count} prints\n{printed}and the manual says\n{expected}")
    print(f"manual: {count} examples print what it says", file=sys.stderr)


def run_c(head, body, folder, compiler, runner):
    """What a program of these lines prints."""
    source, program = os.path.join(folder, "example.c"), os.path.join(folder, "example")
    with open(source, "w", encoding="utf-8") as file:
        file.write(head + "\nint main(void)\n{\n" + body + "(void)show, (void)degrees, (void)tower;\nreturn 0;\n}\n")
    include = os.path.join(ROOT, "include")
    library = os.path.join(folder, "libmausvioline.a")
    run(compiler + ["-std=c11", "-Wall", "-Wextra", "-Werror", "-I" + include, "-o", program, source, library])
    return run(runner + [program])


def run(command, text=""):
    return subprocess.run(command, input=text, stdout=subprocess.PIPE, text=True, check=True).stdout


if __name__ == "__main__":
    main()
