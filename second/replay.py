#!/usr/bin/env python3
"""Makes the input of the program crates/replay, and the output expected of it, with the second program alone.

    second/replay.py            writes crates/replay/stdin and crates/replay/stdout
    second/replay.py --check    says whether those files are what would be written, and writes nothing

The seed is fixed, so the files are the same each time. They hold each call with each length of note, a good perform and
a few dozen changes of a single bit in it, random and hostile runs, and out of more runs a few calls for each number
that each call can give.
"""

import itertools
import pathlib
import sys

sys.dont_write_bytecode = True
ROOT = pathlib.Path(__file__).resolve().parent.parent
sys.path.insert(0, str(ROOT))
from second import lengths, runs, script, sweeps
from second.chance import Chance

SEED = "replay"
EVERY_BIT = 89  # one flip of so many is kept
IN_RUNS = 76  # calls of runs as they come
OF_EACH_NUMBER = 5
SOUGHT_IN = 20_000  # calls
ROOMS = {"page": 128, "record": 1024, "ram": 1024, "disk": 1024, "answer": 1024, "request": 64}
MOST_BYTES = 1_000_000


def few_of_each(stream):
    """The first calls of a stream that give each number that each call can give."""
    left = {(letter, n): OF_EACH_NUMBER for letter, can_give in script.CAN_GIVE.items() for n in can_give}
    for made in stream:
        found = (made.call.letter, made.answer.number)
        if left.get(found):
            left[found] -= 1
            yield made
        if not any(left.values()):
            return


def calls():
    """The calls of the replay, made."""
    chance = Chance(SEED)
    yield from sweeps.every_length(chance)
    yield from itertools.islice(sweeps.bits(chance, "p"), 0, None, EVERY_BIT)
    yield from itertools.islice(runs.runs(chance, IN_RUNS, wide=False), IN_RUNS)
    yield from few_of_each(runs.runs(chance, SOUGHT_IN, wide=False))


def missing(row):
    """What the calls lack: numbers, lengths, or room in the program's buffers."""
    numbers = {(made.call.letter, made.answer.number) for made in row}
    for letter, can_give in script.CAN_GIVE.items():
        yield from (f"{script.NAMES[letter]} gives no {n}" for n in can_give if (letter, n) not in numbers)
    lent = {(made.call.letter, name, len(data)) for made in row for name, data in made.call.buffers.items()}
    yield from (f"a {name} of {length} bytes has no room" for _, name, length in lent if length > ROOMS[name])
    for letter, names in script.PARTS.items():
        for name in names:
            for length in lengths.NAMED[name]:
                if (letter, name, length) not in lent:
                    yield f"{script.NAMES[letter]} is lent no {name} of {length} bytes"


def files():
    """The two files, by path."""
    row = list(calls())
    for lack in missing(row):
        sys.exit(f"replay: FAILED: {lack}")
    given = b"".join(script.item(made.call) for made in row)
    if len(given) > MOST_BYTES:
        sys.exit(f"replay: FAILED: the input has {len(given)} bytes, more than {MOST_BYTES}")
    expected = "".join(script.line(made, script.RATTLE) + "\n" for made in row)
    folder = ROOT / "crates" / "replay"
    return {folder / "stdin": given, folder / "stdout": expected.encode("ascii")}


def main(words):
    if words not in ([], ["--check"]):
        sys.exit(__doc__)
    for path, data in files().items():
        if not words:
            path.parent.mkdir(exist_ok=True)
            path.write_bytes(data)
        elif not path.is_file() or path.read_bytes() != data:
            sys.exit(f"replay: FAILED: {path.relative_to(ROOT)} is not what second/replay.py writes")
        count = f"{data.count(10)} lines" if path.name == "stdout" else f"{len(data)} bytes"
        print(f"replay: {path.relative_to(ROOT)}, {count}")


if __name__ == "__main__":
    main(sys.argv[1:])
