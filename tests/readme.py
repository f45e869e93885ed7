#!/usr/bin/env python3
"""Holds the C program in README.md to the library: it compiles as it stands, runs, and prints what README.md says.

    tests/readme.py [LIBRARY]    LIBRARY is target/staticlib/libkeeper.a unless it is given

It is compiled without a warning as C99 and as C++11, and ends with status 0 as both.
"""

import pathlib
import re
import subprocess
import sys
import tempfile

ROOT = pathlib.Path(__file__).resolve().parent.parent
LONGEST = 60  # seconds for the program, which takes far less than one
STRICT = ["-Wall", "-Wextra", "-Werror", "-pedantic", "-I", str(ROOT / "host")]
LANGUAGES = {"C99": ["gcc", "-std=c99", *STRICT, "-x", "c"], "C++11": ["g++", "-std=c++11", *STRICT, "-x", "c++"]}


def failed(why):
    sys.exit(f"readme: FAILED: {why}")


def shown():
    """The program, which is README's first C block, and what it prints, which is the text block behind it."""
    found = re.search(r"^```c\n(.*?)^```$.*?^```text\n(.*?)^```$", (ROOT / "README.md").read_text("utf-8"), re.M | re.S)
    if not found:
        failed("README.md has no C block with a text block behind it")
    return found[1], found[2]


def printed(language, compiler, source, library, room):
    """What the program prints in one of the languages."""
    program = room / "book"
    built = subprocess.run([*compiler, "-o", program, source, "-x", "none", library], capture_output=True, text=True)
    if built.returncode != 0:
        failed(f"the program does not compile as {language}:\n{built.stderr}")
    try:
        run = subprocess.run([program], capture_output=True, text=True, timeout=LONGEST)
    except subprocess.TimeoutExpired:
        failed(f"the program, as {language}, comes to no end")
    if run.returncode != 0:
        failed(f"the program, as {language}, ends with status {run.returncode}; it printed '{run.stdout.strip()}'")
    return run.stdout


def main():
    library = pathlib.Path(sys.argv[1] if len(sys.argv) > 1 else ROOT / "target" / "staticlib" / "libkeeper.a")
    if not library.is_file():
        failed(f"{library} is missing; tools/archive keeper builds the proved one")
    subprocess.run([ROOT / "tools" / "need", "gcc", "g++", "libc6-dev"], check=True)
    program, line = shown()
    with tempfile.TemporaryDirectory() as made:
        room = pathlib.Path(made)
        source = room / "book.c"
        source.write_text(program, "utf-8")
        for language, compiler in LANGUAGES.items():
            got = printed(language, compiler, source, library, room)
            if got != line:
                failed(f"the program, as {language}, prints '{got.strip()}', where README.md says '{line.strip()}'")
    print(f"readme: the program, as C99 and as C++11, prints '{line.strip()}'")


if __name__ == "__main__":
    main()
