#!/usr/bin/env python3
"""The second program: reads a script and writes the line that answers each item.

    second/answers.py [--rattle] <SCRIPT    lines in the form of a C program, or in that of a Rattle program
"""

import pathlib
import sys

sys.dont_write_bytecode = True
sys.path.insert(0, str(pathlib.Path(__file__).resolve().parent.parent))
from second import script


def main(words):
    if words not in ([], ["--rattle"]):
        sys.exit(__doc__)
    form = script.RATTLE if words else script.C
    try:
        for call in script.read(sys.stdin.buffer.read()):
            print(script.line(script.make(call), form))
    except ValueError as error:
        sys.exit(f"answers: {error}")


if __name__ == "__main__":
    main(sys.argv[1:])
