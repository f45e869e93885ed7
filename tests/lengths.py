#!/usr/bin/env python3
"""Holds the program crates/vectors to Python's hashlib and hmac, and to its answers where an item is malformed.

    tests/lengths.py [PROGRAM]    PROGRAM is crates/vectors/out/vectors unless it is given

Messages and keys are random bytes from a fixed seed, so a difference comes again in the next run.
"""

import hashlib
import hmac
import pathlib
import random
import subprocess
import sys

sys.dont_write_bytecode = True
sys.path.insert(0, str(pathlib.Path(__file__).resolve().parent.parent / "tools"))
import items

HASH_MOST, KEY_MOST, MAC_MOST = 65536, 256, 65472

# Where the padding begins a new block, and the lengths beside those; then the longest.
EDGES = [0, 1, 54, 55, 56, 57, 62, 63, 64, 65, 66, 118, 119, 120, 121, 127, 128, 129]
KEY_EDGES = [0, 1, 31, 32, 33, 63, 64, 65, 127, 128, 255, KEY_MOST]

chance = random.Random(1804)
failures = []


def digest(message):
    return hashlib.sha256(message).hexdigest()


def mac(key, message):
    return hmac.new(key, message, "sha256").hexdigest()


def hashed(length):
    message = chance.randbytes(length)
    return f"h, {length} bytes", items.hash_item(message), digest(message)


def maced(key_length, length):
    key, message = chance.randbytes(key_length), chance.randbytes(length)
    return f"m, {length} bytes under {key_length}", items.mac_item(key, message), mac(key, message)


def near(most):
    """A random length: half of them short, half anywhere up to most."""
    return chance.randint(0, chance.choice([300, most]))


def expect(what, got, expected):
    if got != expected:
        failures.append(f"{what}: {got} where {expected} is expected")


def compare(made):
    """One run over good items, each answered by its own line."""
    lines = items.answers(program, b"".join(item for _, item, _ in made))
    expect("lines", len(lines), len(made))
    for (what, _, expected), line in zip(made, lines):
        expect(what, line, expected)


def slowly(made):
    """The same items, handed over in small pieces, so that reads come back short."""
    given = b"".join(item for _, item, _ in made)
    run = subprocess.Popen([str(program)], stdin=subprocess.PIPE, stdout=subprocess.PIPE, bufsize=0)
    at = 0
    try:
        while at < len(given):
            step = chance.choice([1, 2, 3, 5, 61, 1000, 4095, 4097, 20000])
            run.stdin.write(given[at : at + step])
            at += step
    except BrokenPipeError:
        pass  # it ended early, and what it wrote shows that
    wrote = run.communicate(timeout=600)[0].decode("ascii").splitlines()
    expect("in pieces", wrote, [expected for _, _, expected in made])
    expect("in pieces, status", run.returncode, 0)


def malformed():
    """Every malformed shape: what it is, and its bytes. Where a length is out of bounds nothing else is wrong, as far
    as the message here reaches."""
    message = chance.randbytes(2 * HASH_MOST)

    def of(length):
        return items.number(length) + message[:length]

    for length in (HASH_MOST + 1, HASH_MOST + 64, 2 * HASH_MOST, 2**24, 2**31, 2**32 - 1):
        yield f"h of {length} bytes, too many", b"h" + of(length)
    for length in (KEY_MOST + 1, KEY_MOST + 64, MAC_MOST, HASH_MOST, 2**24, 2**31, 2**32 - 1):
        yield f"m with a key of {length} bytes, too many", b"m" + of(length) + of(3)
    for length in (MAC_MOST + 1, HASH_MOST, HASH_MOST + 1, 2**24, 2**31, 2**32 - 1):
        yield f"m of {length} bytes, too many", b"m" + of(3) + of(length)
    for what, item in (
        ("h of 3 bytes", items.hash_item(b"abc")),
        ("h of none", items.hash_item(b"")),
        ("m of 3 bytes under 3", items.mac_item(b"key", b"abc")),
        ("m of none under none", items.mac_item(b"", b"")),
    ):
        for kept in range(1, len(item)):
            yield f"{what}, cut after {kept}", item[:kept]
    for what, item in (
        ("h of 65,536 bytes", items.hash_item(message[:HASH_MOST])),
        ("m of 65,472 bytes under 256", items.mac_item(message[:KEY_MOST], message[:MAC_MOST])),
    ):
        for kept in (100, 4095, 4096, 4097, 4101, 32768, len(item) - 4096, len(item) - 1):
            yield f"{what}, cut after {kept}", item[:kept]
    for tag in range(256):
        if tag not in b"hm":
            yield f"an item that begins with {tag}", bytes([tag]) + of(3)


program = items.program(sys.argv[1:])

hashes = [hashed(n) for n in EDGES + [HASH_MOST - 1, HASH_MOST]]
hashes += [hashed(n) for n in range(300)]
hashes += [hashed(near(HASH_MOST)) for _ in range(400)]
macs = [maced(k, n) for k in KEY_EDGES for n in EDGES + [MAC_MOST - 1, MAC_MOST]]
macs += [maced(k, near(MAC_MOST)) for k in range(KEY_MOST + 1)]
macs += [maced(chance.randint(0, KEY_MOST), near(MAC_MOST)) for _ in range(400)]
mixed = hashes + macs
chance.shuffle(mixed)
compare(mixed)
slowly([hashed(0), maced(65, 300), hashed(HASH_MOST), maced(KEY_MOST, MAC_MOST), hashed(55), maced(0, 0)])

# Each malformed item stands after a good one, and a good one stands after it where it is not cut short: the first is
# answered, the malformed one is bad, and nothing follows.
_, good, expected = hashed(119)
shapes = list(malformed())
for what, item in shapes:
    after = b"" if ", cut after" in what else good
    expect(what, items.answers(program, good + item + after), [expected, "bad"])
    expect(f"{what}, first", items.answers(program, item + after), ["bad"])
expect("no input", items.answers(program, b""), [])

if failures:
    print("\n".join(failures[:20]))
    sys.exit(f"lengths: FAILED: {len(failures)} differences")
print(
    f"lengths: {len(hashes) + 3} digests and {len(macs) + 3} MACs are those of hashlib and hmac,"
    f" and {len(shapes)} malformed items are bad"
)
