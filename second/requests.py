"""Requests for the runs: ones that the charge rules carry out, ones at the edge of the rules, and malformed ones."""

from second import layout, rules, states
from second.layout import Rack
from second.rules import CAPACITY, CHARGE, DISCHARGE, MOST_AMOUNT, MOST_CAPACITY, MOST_MOVED, MOVE


def two_racks(chance):
    """The numbers of two different racks."""
    at = chance.below(layout.RACKS)
    return at, (at + chance.between(1, layout.RACKS - 1)) % layout.RACKS


def candidate(chance, racks):
    """A request that these racks may be able to carry out."""
    kind = chance.between(CAPACITY, MOVE)
    at, other = two_racks(chance)
    rack = racks[at]
    if kind == CAPACITY:
        return layout.request_bytes(kind, at, 0, max(rack.stored, states.near(chance, MOST_AMOUNT)))
    if kind == CHARGE:
        return layout.request_bytes(kind, at, 0, states.near(chance, rack.capacity - rack.stored))
    if kind == DISCHARGE:
        return layout.request_bytes(kind, at, 0, states.near(chance, rack.stored))
    room = racks[other].capacity - racks[other].stored
    return layout.request_bytes(kind, at, other, states.near(chance, min(room, rack.stored)))


def fitting(chance, racks):
    """A request that these racks carry out."""
    while True:
        request = candidate(chance, racks)
        if rules.well_formed(request) and rules.refusal(racks, layout.read_request(request)) == 0:
            return request


def beside(chance, amount):
    """A number that the amount just fits into, just passes, or is far from."""
    return max(0, amount + chance.one((0, 0, 1, -1, -1, 1 + chance.below(MOST_CAPACITY))))


def tight_source(chance, amount):
    """A rack that stores about the amount."""
    stored = min(beside(chance, amount), MOST_CAPACITY)
    given = states.near(chance, MOST_MOVED - stored)
    return Rack(chance.between(stored, MOST_CAPACITY), stored, stored + given, given)


def tight_target(chance, amount):
    """A rack with room for about the amount, and often about the amount left before its limit of taken in."""
    room = min(beside(chance, amount), MOST_CAPACITY)
    stored = states.near(chance, MOST_CAPACITY - room)
    left = chance.one((beside(chance, amount), beside(chance, amount), chance.below(MOST_MOVED)))
    taken = max(stored, MOST_MOVED - left)
    return Rack(stored + room, stored, taken, taken - stored)


def tight(chance):
    """Racks, and a request that is at the edge of the charge rules on them: refusals 9, 10 and 11 in every mixture."""
    racks = states.racks(chance)
    kind = chance.one((CAPACITY, CHARGE, CHARGE, DISCHARGE, MOVE, MOVE, MOVE))
    at, other = two_racks(chance)
    amount = max(1, chance.one((1, 2, 3600, states.near(chance, MOST_AMOUNT), MOST_AMOUNT // 2)))
    if kind == CHARGE:
        racks[at] = tight_target(chance, amount)
    else:
        racks[at] = tight_source(chance, amount)
    if kind == MOVE:
        racks[other] = tight_target(chance, amount)
    return racks, layout.request_bytes(kind, at, other if kind == MOVE else 0, amount)


def wrong_fields(chance, kind, rack):
    """One field of a request and a value that it may not have there."""
    wrong = [
        ("length", chance.one((0, 7, 9, 10, 264, 2048, 65535))),
        ("version", chance.one((0, 2, 129, 255))),
        ("kind", chance.one((0, 5, 6, 255))),
        ("rack", chance.one((16, 17, rack + 16, rack + 128, 255))),
        ("amount", chance.one((MOST_AMOUNT + 1, MOST_AMOUNT + 1, MOST_AMOUNT + 2 + chance.below(9), 2**32 - 1))),
    ]
    if kind != CAPACITY:
        wrong += [("amount", 0)] * 2
    if kind == MOVE:
        wrong += [("other", rack), ("other", rack), ("other", chance.one((16, 17, rack + 16, 255)))]
    else:
        wrong += [("other", chance.one((1, rack or 1, chance.between(1, 15), 16, 255)))] * 2
    return chance.one(wrong)


def malformed(chance):
    """A request of the right size with one field that is not well formed."""
    kind = chance.between(CAPACITY, MOVE)
    rack, other = two_racks(chance)
    fields = {"kind": kind, "rack": rack, "other": other if kind == MOVE else 0, "amount": 1 + chance.below(1000)}
    name, value = wrong_fields(chance, kind, rack)
    return layout.request_bytes(**{**fields, name: value})
