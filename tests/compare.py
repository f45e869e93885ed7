#!/usr/bin/env python3
"""Holds the C functions of the library to the independent second program, over random and hostile runs.

    tests/compare.py [--calls N] [--seed S] [LIBRARY]

LIBRARY is target/staticlib/libkeeper.a unless it is given. At least N calls are made, 100,000 unless it is given. Every
number, every figure and every byte of every buffer lent has to be that of the second program, and no byte beside a
buffer may change. The seed is a fresh one each time; it is printed first, and given again it repeats the run.

At the end a table says how often each call gave each number. The test fails as well if a number that a call can give
came fewer than 20 times, so with few calls it fails for that reason.
"""

import argparse
import collections
import itertools
import os
import pathlib
import subprocess
import sys
import tempfile
import time

sys.dont_write_bytecode = True
ROOT = pathlib.Path(__file__).resolve().parent.parent
sys.path.insert(0, str(ROOT))
from second import runs, script, sweeps
from second.chance import Chance

CHUNK = 4000
FEWEST = 20
LONGEST = 120  # seconds for one chunk, which takes far less than one
NUMBERS = range(14)


def asked():
    """What the command line asks for."""
    words = argparse.ArgumentParser(description=__doc__, formatter_class=argparse.RawDescriptionHelpFormatter)
    words.add_argument("--calls", type=int, default=100_000)
    words.add_argument("--seed", default=os.urandom(8).hex())
    words.add_argument("library", nargs="?", default=ROOT / "target" / "staticlib" / "libkeeper.a", type=pathlib.Path)
    return words.parse_args()


def built(library, room):
    """The driver, built against the library."""
    if not library.is_file():
        sys.exit(f"compare: {library} is missing; it is the static library of the C functions")
    subprocess.run([ROOT / "tools" / "need", "gcc", "libc6-dev"], check=True)
    driver = pathlib.Path(room) / "driver"
    flags = ["-std=c99", "-O2", "-Wall", "-Wextra", "-Werror", "-pedantic", "-I", ROOT / "host"]
    source = ROOT / "second" / "driver.c"
    if subprocess.run(["gcc", *flags, "-o", driver, source, library]).returncode != 0:
        sys.exit(f"compare: FAILED: the driver does not build with {library}")
    return driver


def calls(seed, count):
    """The calls to compare: the sweeps, and then random and hostile runs of so many calls."""
    chance = Chance(seed)
    yield from sweeps.every_length(chance)
    for letter in sweeps.LETTERS:
        yield from sweeps.bits(chance, letter)
    yield from runs.runs(chance, count, wide=True)


def shown(number, made, got):
    """A difference: the item's number, the call, and each field that is not as expected."""
    letter = made.call.letter
    rows = [f"item {number}, {script.NAMES[letter]}:"]
    names = ("letter", *script.fields(letter, script.C))
    expected = script.line(made, script.C).split(" ")
    for name, mine, theirs in itertools.zip_longest(names, expected, got.split(" ")):
        if mine != theirs:
            rows.append(f"  {name or 'more'}: expected {mine}, got {theirs}")
    return "\n".join(rows)


def driven(driver, chunk):
    """The lines that the driver writes whole for a chunk, and what is to be said of how it ended, if anything is."""
    given = b"".join(script.item(made.call) for made in chunk)
    with subprocess.Popen([driver], stdin=subprocess.PIPE, stdout=subprocess.PIPE, stderr=subprocess.PIPE) as run:
        try:
            wrote, said = run.communicate(given, timeout=LONGEST)
        except subprocess.TimeoutExpired:
            run.kill()
            wrote, said = run.communicate()
            said += b"driver: it came to no end"
    *lines, rest = wrote.decode("ascii", "replace").split("\n")
    if run.returncode == 0 and len(lines) == len(chunk) and not rest:
        return lines, ""
    why = said.decode("utf-8", "replace").strip() or "it said nothing"
    return lines, f"the driver ended with status {run.returncode}: {why}"


def hold(driver, first, chunk):
    """Makes the calls of a chunk with the driver and holds each line to the second program's."""
    lines, ended = driven(driver, chunk)
    for number, (made, got) in enumerate(zip(chunk, lines), first):
        if got != script.line(made, script.C):
            sys.exit(f"compare: FAILED: {shown(number, made, got)}")
    if ended:
        at = min(len(lines), len(chunk) - 1)
        sys.exit(f"compare: FAILED: item {first + at}, {script.NAMES[chunk[at].call.letter]}: {ended}")


def table(counts):
    """Prints how often each number came, and gives what came too seldom."""
    print("         " + "".join(f"{number:>8}" for number in NUMBERS))
    seldom = []
    for letter, name in script.NAMES.items():
        print(f"{name:<9}" + "".join(f"{counts[letter, number]:>8}" for number in NUMBERS))
        for number in script.CAN_GIVE[letter]:
            if counts[letter, number] < FEWEST:
                seldom.append(f"{name} gave {number} {counts[letter, number]} times")
    return seldom


def main():
    wanted = asked()
    print(f"compare: seed {wanted.seed}", flush=True)
    began = time.monotonic()
    counts = collections.Counter()
    with tempfile.TemporaryDirectory() as room:
        driver = built(wanted.library, room)
        stream = calls(wanted.seed, wanted.calls)
        done = 0
        while chunk := list(itertools.islice(stream, CHUNK)):
            hold(driver, done + 1, chunk)
            done += len(chunk)
            counts.update((made.call.letter, made.answer.number) for made in chunk)
    seldom = table(counts)
    if seldom:
        sys.exit(f"compare: FAILED: fewer than {FEWEST} times: {'; '.join(seldom)}")
    took = time.monotonic() - began
    print(f"compare: {done} calls, in {took:.0f} seconds: every number and every byte is that of the second program")


if __name__ == "__main__":
    main()
