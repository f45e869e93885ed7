"""The script: a binary row of calls for a program to make, and the lines that it has to answer.

An item is a letter and then its parts. A buffer is its length in four bytes and that many bytes; a rack is four bytes.

    o  page answer                     open
    p  page record request answer      perform
    r  page record request answer      repeat
    v  page record rack                view, and its four figures
    u  page ram disk                   resume

Each item is answered by one line of fields in hexadecimal, with every buffer as it is after the call. An empty buffer
is a hyphen, and a number has eight digits. There are two forms of line: that of a Rattle program, which sees all that a
call returns, and that of a C program, which sees one number of each call.
"""

import struct
from typing import NamedTuple

from second import keeper

PARTS = {
    "o": ("page", "answer"),
    "p": ("page", "record", "request", "answer"),
    "r": ("page", "record", "request", "answer"),
    "v": ("page", "record"),
    "u": ("page", "ram", "disk"),
}
NAMES = {"o": "open", "p": "perform", "r": "repeat", "v": "view", "u": "resume"}
CALLS = {"o": keeper.open, "p": keeper.perform, "r": keeper.repeat, "v": keeper.view, "u": keeper.resume}
FIGURES = {"o": (), "p": ("stored",), "r": ("stored",), "v": ("stored", "capacity", "percent", "total"), "u": ()}
CAN_GIVE = {
    "o": (0, 1, 2, 13),
    "p": tuple(range(12)),
    "r": tuple(range(12)),
    "v": (0, 1, 3, 4, 5, 6, 7, 8),  # and 12, which sixteen racks within their limits cannot reach
    "u": (0, 1, 2),
}
C, RATTLE = "C", "Rattle"


class Call(NamedTuple):
    """One call: its letter, the buffers that it is lent, by name, and the rack of a view."""

    letter: str
    buffers: dict
    rack: int = 0

    def with_parts(self, **others):
        """The same call with other buffers in place of some."""
        return self._replace(buffers={**self.buffers, **others})


class Made(NamedTuple):
    """A call that was made: the call as it was, what it returned, and the buffers after it."""

    call: Call
    answer: NamedTuple
    after: dict


def make(call):
    """Makes a call on copies of its buffers."""
    after = {name: bytearray(call.buffers[name]) for name in PARTS[call.letter]}
    more = (call.rack,) if call.letter == "v" else ()
    return Made(call, CALLS[call.letter](*after.values(), *more), after)


def item(call):
    """A call as an item of the script."""
    row = [call.letter.encode("ascii")]
    for name in PARTS[call.letter]:
        buffer = call.buffers[name]
        row += [struct.pack(">I", len(buffer)), buffer]
    if call.letter == "v":
        row.append(struct.pack(">I", call.rack))
    return b"".join(row)


def fields(letter, form):
    """The names of a line's fields behind its letter."""
    figures = FIGURES[letter] if form == RATTLE or letter == "v" else ()
    part = ("part",) if form == RATTLE and letter == "u" else ()
    return ("number", *figures, *PARTS[letter], *part)


def line(made, form):
    """The line that answers a call that was made."""
    row = [made.call.letter]
    for name in fields(made.call.letter, form):
        value = made.after[name] if name in made.after else getattr(made.answer, name)
        row.append(f"{value:08x}" if isinstance(value, int) else value.hex() or "-")
    return " ".join(row)


def read(script):
    """The calls of a script; a malformed one ends with a ValueError."""
    at = 0

    def take(count):
        nonlocal at
        if at + count > len(script):
            raise ValueError(f"the script ends within an item, after {len(script)} bytes")
        at += count
        return bytes(script[at - count : at])

    def number():
        return struct.unpack(">I", take(4))[0]

    while at < len(script):
        letter = take(1).decode("latin-1")
        if letter not in PARTS:
            raise ValueError(f"byte {at - 1} of the script is {letter!r}, the letter of no call")
        buffers = {name: take(number()) for name in PARTS[letter]}
        yield Call(letter, buffers, number() if letter == "v" else 0)
