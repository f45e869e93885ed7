#!/usr/bin/env python3
"""Writes the vectors that crates/vectors is run on: its stdin, and the stdout expected of it.

    tools/vectors.py            writes both files
    tools/vectors.py --check    writes nothing, and fails where they are not what the package gives

The vectors are those of Debian's package python3-cryptography-vectors: all of NIST's SHA256ShortMsg.rsp and
SHA256LongMsg.rsp, and all of RFC 4231 for HMAC-SHA-256 but its test case 5. Of that one the RFC publishes only the
first 128 bits, and the package leaves it out; tests/rfc4231_case5.py has it. This script computes no digest: what it
expects is what was published.
"""

import pathlib
import sys

sys.dont_write_bytecode = True
import items

PACKAGE = pathlib.Path("/usr/lib/python3/dist-packages/cryptography_vectors")
CRATE = items.ROOT / "crates" / "vectors"

# Each file with how many vectors it has, so that none is passed over unnoticed.
HASHES = [("hashes/SHA2/SHA256ShortMsg.rsp", 65), ("hashes/SHA2/SHA256LongMsg.rsp", 64)]
MACS = [("HMAC/rfc-4231-sha256.txt", 6)]


def vectors(name, count):
    """The vectors of a file, each a dictionary of its fields. A vector ends with its field MD."""
    found, fields = [], {}
    for line in (PACKAGE / name).read_text("ascii").splitlines():
        field, equals, value = (word.strip() for word in line.partition("="))
        if equals and not line.startswith(("#", "[")):
            if field in fields:
                sys.exit(f"{name}: a second {field} before an MD")
            fields[field] = value
            if field == "MD":
                found.append(fields)
                fields = {}
    if fields or len(found) != count:
        sys.exit(f"{name}: {len(found)} vectors, where {count} are expected")
    return found


def message(vector):
    """The message. Len counts its bits; an empty message is written as the byte 00."""
    bits = int(vector["Len"])
    data = bytes.fromhex(vector["Msg"])
    if bits == 0 and data in (b"", b"\0"):
        return b""
    if bits != 8 * len(data):
        sys.exit(f"a message of {len(data)} bytes has the length {bits} bits")
    return data


def digest(vector):
    if len(bytes.fromhex(vector["MD"])) != 32:
        sys.exit(f"a digest of other than 32 bytes: {vector['MD']}")
    return vector["MD"].lower()


def made():
    """The two files, by name."""
    given, expected = [], []
    for name, count in HASHES:
        for vector in vectors(name, count):
            given.append(items.hash_item(message(vector)))
            expected.append(digest(vector))
    for name, count in MACS:
        for vector in vectors(name, count):
            given.append(items.mac_item(bytes.fromhex(vector["Key"]), message(vector)))
            expected.append(digest(vector))
    lines = "".join(line + "\n" for line in expected)
    return {"stdin": b"".join(given), "stdout": lines.encode("ascii")}


def main(words):
    if words not in ([], ["--check"]):
        sys.exit("usage: tools/vectors.py [--check]")
    files = made()
    count = files["stdout"].count(b"\n")
    for name, data in files.items():
        path = CRATE / name
        if not words:
            path.write_bytes(data)
        elif not path.is_file() or path.read_bytes() != data:
            sys.exit(f"vectors: {path.relative_to(items.ROOT)} is not what the package gives; tools/vectors.py writes it anew")
    print(f"vectors: {count} published vectors, {'as in' if words else 'written to'} crates/vectors/stdin and stdout")


main(sys.argv[1:])
