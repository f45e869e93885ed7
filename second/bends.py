"""What a hostile host offers in place of a good page, record, request, answer buffer or rack."""

from second import hashed, layout, lengths, requests, states

# The first and the last byte of each part.
EDGES = {
    "page": (0, 31, 32, 63),
    "record": (0, 1, 2, 3, 386, 387, 418, 419, 450),
    "request": (0, 1, 2, 3, 4, 5, 6, 9),
}


def flipped(data, bit):
    """The data with one bit changed; bit 0 is the highest of the first byte."""
    after = bytearray(data)
    after[bit // 8] ^= 0x80 >> bit % 8
    return bytes(after)


def some_flip(chance, data, edges):
    """The data with one bit changed, often one at the edge of a part."""
    if not data:
        return data
    at = chance.one((chance.one(edges), chance.below(len(data))))
    return flipped(data, 8 * min(at, len(data) - 1) + chance.below(8))


def page(chance, run, good):
    """Another page: a bit, the key, or the summary is another one."""
    summary, key = layout.page_summary(good), layout.page_key(good)
    seen = layout.read_record(chance.one(run.book)).summary
    return chance.weighed((
        (6, some_flip(chance, good, EDGES["page"])),
        (1, layout.page_bytes(summary, chance.bytes(32))),
        (1, layout.page_bytes(chance.bytes(32), key)),
        (1, layout.page_bytes(layout.ZERO_SUMMARY, key)),
        (1, layout.page_bytes(seen, key)),
        (1, layout.page_bytes(key, summary)),
        (1, chance.bytes(64)),
    ))


def mixed(chance, run, good):
    """A record of the state of one, the summary of another and the authenticator of a third."""
    parts = [layout.read_record(chance.one((good, chance.one(run.book)))) for _ in range(3)]
    return layout.record_bytes(parts[0].state, parts[1].summary, parts[2].authenticator)


def headed(chance, good):
    """A record whose length field or version is another one."""
    length = chance.one((0, 1, 384, 448, 450, 451, 0xC101, 65535)).to_bytes(2, "big")
    version = bytes([chance.one((0, 2, 3, 129, 255))])
    bad_version = good[:2] + version + good[3:]
    return chance.one((length + good[2:], length + bad_version[2:], bad_version, bad_version, bad_version))


def signed(chance, run, good):
    """A record that is right but for one thing and has the authenticator that is valid for it."""
    parts = layout.read_record(good)
    racks = layout.read_state(parts.state)
    if chance.below(4):
        return hashed.sealed(run.key, parts.summary, states.broken(chance, racks))
    summary = chance.one((chance.bytes(32), layout.ZERO_SUMMARY, some_flip(chance, parts.summary, (0, 31))))
    return hashed.sealed(run.key, summary, parts.state)


def record(chance, run, good):
    """Another record in place of a good one, most of them still of 451 bytes."""
    if len(good) != layout.RECORD_SIZE:
        return good
    parts = layout.read_record(good)
    kind = chance.weighed(((5, "flip"), (3, "mixed"), (2, "old"), (2, "stranger"), (5, "headed"), (6, "signed"),
                           (1, "other key"), (1, "random")))
    if kind == "flip":
        return some_flip(chance, good, EDGES["record"])
    if kind == "mixed":
        return mixed(chance, run, good)
    if kind == "old":
        return chance.one(run.book)
    if kind == "stranger":
        return chance.one(run.strangers)
    if kind == "headed":
        return headed(chance, good)
    if kind == "signed":
        return signed(chance, run, good)
    if kind == "other key":
        return hashed.sealed(chance.one((bytes(32), chance.bytes(32))), parts.summary, parts.state)
    return chance.one((bytes(451), layout.HEADER + chance.bytes(448), layout.HEADER + bytes(384) + chance.bytes(64)))


def request(chance, run, good):
    """Another request in place of a good one: a bit is another one, or it is malformed, or it is one of before."""
    kind = chance.weighed(((3, "flip"), (5, "malformed"), (1, "old"), (1, "random")))
    if kind == "flip":
        return some_flip(chance, good, EDGES["request"])
    if kind == "malformed":
        return requests.malformed(chance)
    if kind == "old" and run.steps:
        return chance.one(run.steps)[1]
    return b"\x00\x08\x01" + chance.bytes(7)


def answer(chance, run, good):
    """An answer buffer of any length, and most of them too short or too long."""
    return lengths.resized(chance, good, lengths.some(chance, "answer", run.wide))


def rack(chance):
    """A rack's number of four bytes that no rack has."""
    return chance.one((16, 16, 17, 31, 255, 256, 256 + chance.below(16), 65536, 2**31, 2**32 - 1))


KINDS = {"page": page, "record": record, "ram": record, "disk": record, "request": request, "answer": answer}


def part(chance, run, name, good):
    """Another buffer in place of a good one, of another length too in one case of five."""
    if chance.once_in(5):
        length = lengths.some(chance, name, run.wide)
        after = lengths.resized(chance, good, length)
        if name in ("record", "ram", "disk") and 2 <= length < 65536 and chance.once_in(2):
            after = (length - 2).to_bytes(2, "big") + after[2:]
        return after
    return KINDS[name](chance, run, good)


def call(chance, run, good):
    """A call with one to three of its parts replaced, so that the order of the tests shows."""
    names = list(good.buffers) + (["rack"] if good.letter == "v" else [])
    after = good
    for _ in range(chance.one((1, 1, 1, 2, 2, 3))):
        name = chance.one(names)
        if name == "rack":
            after = after._replace(rack=rack(chance))
        else:
            after = after.with_parts(**{name: part(chance, run, name, after.buffers[name])})
    return after
