"""The lengths of buffers that the runs lend: the right one, those beside it, and those that are far off."""

_RECORD = (0, 450, 451, 452, 1024)
NAMED = {
    "page": (0, 1, 63, 64, 65, 128),
    "record": _RECORD,
    "ram": _RECORD,
    "disk": _RECORD,
    "request": (0, 9, 10, 11, 64),
    "answer": _RECORD,
}

_MORE_RECORD = (1, 2, 3, 387, 419, 449, 453, 512, 902)
MORE = {
    "page": (2, 31, 32, 33, 66, 96),
    "record": _MORE_RECORD,
    "ram": _MORE_RECORD,
    "disk": _MORE_RECORD,
    "request": (1, 2, 3, 8, 12, 20),
    "answer": _MORE_RECORD,
}

# Right for a program that keeps a length in one or two bytes; lent to the C functions only.
WIDE = {
    "page": (256 + 64, 65536 + 64),
    "record": (65536 + 451,),
    "ram": (65536 + 451,),
    "disk": (65536 + 451,),
    "request": (256 + 10, 65536 + 10),
    "answer": (65536 + 450, 65536 + 451),
}


def resized(chance, data, length):
    """The data cut or drawn out to a length; what is new is random."""
    return data[:length] + chance.bytes(max(0, length - len(data)))


def some(chance, name, wide):
    """A length for this buffer, right or wrong."""
    if wide and chance.once_in(40):
        return chance.one(WIDE[name])
    return chance.one(chance.one((NAMED, NAMED, MORE))[name])
