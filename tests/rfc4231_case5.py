#!/usr/bin/env python3
"""Test case 5 of RFC 4231 for HMAC-SHA-256, of which the RFC publishes only the first 128 bits.

It stands apart from crates/vectors/stdout, which has whole MACs alone and nothing that was not published.

    tests/rfc4231_case5.py [PROGRAM]    PROGRAM is crates/vectors/out/vectors unless it is given
"""

import pathlib
import sys

sys.dont_write_bytecode = True
sys.path.insert(0, str(pathlib.Path(__file__).resolve().parent.parent / "tools"))
import items

KEY = bytes([0x0C]) * 20
MESSAGE = b"Test With Truncation"
PUBLISHED = "a3b6167473100ee06e0c796c2955552b"

program = items.program(sys.argv[1:])
lines = items.answers(program, items.mac_item(KEY, MESSAGE))
if len(lines) != 1 or len(lines[0]) != 64 or lines[0][:32] != PUBLISHED:
    sys.exit(f"rfc4231_case5: FAILED: {lines}, where one MAC that begins {PUBLISHED} is expected")
print("rfc4231_case5: the first 128 bits are those published")
