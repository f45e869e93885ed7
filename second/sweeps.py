"""Sweeps over a good call: every change of a single bit in what is offered, and every length of each buffer."""

from second import bends, lengths, scenes, script

LETTERS = "oprvu"


def bits(chance, letter):
    """One accepted call, and then that call with each bit of each buffer but the answer changed, one at a time."""
    good = scenes.some_call(chance, letter, chance.bytes(32))
    yield script.make(good)
    for name in script.PARTS[letter]:
        if name != "answer":
            for bit in range(8 * len(good.buffers[name])):
                yield script.make(good.with_parts(**{name: bends.flipped(good.buffers[name], bit)}))


def every_length(chance):
    """Each call with each length of note of each buffer, one at a time."""
    for letter in LETTERS:
        good = scenes.some_call(chance, letter, chance.bytes(32))
        for name in script.PARTS[letter]:
            for length in lengths.NAMED[name]:
                yield script.make(good.with_parts(**{name: lengths.resized(chance, good.buffers[name], length)}))
