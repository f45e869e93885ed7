"""The items that the program crates/vectors reads, as bytes, and a run of it. Computes no digest."""

import pathlib
import struct
import subprocess
import sys

ROOT = pathlib.Path(__file__).resolve().parent.parent
BUILT = ROOT / "crates" / "vectors" / "out" / "vectors"


def number(n):
    return struct.pack(">I", n)


def part(data):
    return number(len(data)) + data


def hash_item(message):
    return b"h" + part(message)


def mac_item(key, message):
    return b"m" + part(key) + part(message)


def program(words):
    """The program to run: the one that the words name, or the one that rt built."""
    path = pathlib.Path(words[0]).resolve() if words else BUILT
    if not path.is_file():
        sys.exit(f"{path} is missing; rt run, in crates/vectors, builds the program")
    return path


def answers(program, given):
    """The lines that the program writes for what it is given."""
    run = subprocess.run([str(program)], input=given, stdout=subprocess.PIPE, check=True, timeout=600)
    text = run.stdout.decode("ascii")
    if text and not text.endswith("\n"):
        sys.exit(f"{program}: its last line has no end")
    return text.splitlines()
