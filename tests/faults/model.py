"""The charge book by document 01, as far as the site program's tests need it: racks, chained summary, record."""

import dataclasses
import hashlib
import hmac
import struct

CAPACITY, CHARGE, DISCHARGE, MOVE = 1, 2, 3, 4
RACKS = 16
HEADER = bytes([0x01, 0xC1, 0x01])


def sha256(data):
    return hashlib.sha256(data).digest()


def request_bytes(kind, rack, other, amount):
    return struct.pack(">HBBBBI", 8, 1, kind, rack, other, amount)


def words_of(kind, rack, other, amount):
    """What a request asks, as the site program says it."""
    if kind == CAPACITY:
        return f"capacity of rack {rack} to {amount:,}"
    if kind == MOVE:
        return f"move {amount:,} from rack {rack} to rack {other}"
    return f"{'charge' if kind == CHARGE else 'discharge'} rack {rack} by {amount:,}"


@dataclasses.dataclass(frozen=True)
class Book:
    """The racks as (capacity, stored, taken in, given out), the summary, how many requests are booked, and of the last
    one given its number, whether it is booked, and what it asks."""

    racks: tuple = ((0, 0, 0, 0),) * RACKS
    summary: bytes = bytes(32)
    count: int = 0
    number: int = 0
    booked: bool = False
    asked: str = ""

    def told(self):
        """What status says of the last request given."""
        return self.number, self.booked, self.asked

    def noted(self, kind, rack, other, amount):
        """The book when a request is given and not booked."""
        return dataclasses.replace(self, number=self.count + 1, booked=False, asked=words_of(kind, rack, other, amount))

    def given(self, kind, rack, other, amount, refused):
        """The book after a request that is known to be refused or not."""
        noted = self.noted(kind, rack, other, amount)
        if refused:
            return noted
        racks = list(self.racks)
        capacity, stored, taken, given = racks[rack]
        if kind == CAPACITY:
            racks[rack] = amount, stored, taken, given
        elif kind == CHARGE:
            racks[rack] = capacity, stored + amount, taken + amount, given
        else:
            racks[rack] = capacity, stored - amount, taken, given + amount
        if kind == MOVE:
            capacity, stored, taken, given = racks[other]
            racks[other] = capacity, stored + amount, taken + amount, given
        summary = sha256(b"\2" + self.summary + request_bytes(kind, rack, other, amount))
        return Book(tuple(racks), summary, noted.number, noted.number, True, noted.asked)

    def record(self, key):
        state = b"".join(struct.pack(">IIQQ", *rack) for rack in self.racks)
        binding = sha256(b"\3" + self.summary + sha256(b"\1" + state))
        return HEADER + state + self.summary + hmac.new(key, binding, "sha256").digest()

    def table(self):
        """The rows of view, each a rack, its capacity, stored, percent, taken in and given out; and the total."""
        rows = [(i, c, s, 100 * s // c if c else 0, t, g) for i, (c, s, t, g) in enumerate(self.racks) if c or t]
        return rows, sum(rack[1] for rack in self.racks)
