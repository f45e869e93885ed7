"""Racks and states for the runs: ordinary ones, ones at the limits, and ones that break the state rule."""

from second import layout
from second.layout import Rack
from second.rules import MOST_CAPACITY, MOST_MOVED


def near(chance, most):
    """A number from 0 to most: small, close to most, or anywhere."""
    return max(0, min(most, chance.one((chance.below(3), most - chance.below(3), chance.below(most + 1)))))


def at_percent(chance, capacity):
    """The least that is a whole percent of a capacity, or one less than it."""
    whole = (capacity * chance.between(1, 100) + 99) // 100
    return max(0, whole - chance.below(2))


def rack(chance):
    """A rack that keeps the state rule, often at one of the limits."""
    capacity = chance.one((near(chance, MOST_CAPACITY), 72_000, chance.below(300), chance.below(MOST_CAPACITY + 1)))
    stored = chance.one((near(chance, capacity), at_percent(chance, capacity)))
    given = near(chance, MOST_MOVED - stored)
    return Rack(capacity, stored, stored + given, given)


def racks(chance):
    """Sixteen racks that keep the state rule, some of them empty."""
    empty = Rack(0, 0, 0, 0)
    filled = chance.one((16, 16, 16, 12, 2))
    return [rack(chance) if chance.below(16) < filled else empty for _ in range(layout.RACKS)]


def over_capacity_limit(chance):
    """A rack whose capacity alone is past its limit."""
    good = rack(chance)
    return good._replace(capacity=chance.one((MOST_CAPACITY + 1, MOST_CAPACITY + 1 + chance.below(9), 2**32 - 1)))


def over_capacity(chance):
    """A rack that stores more than its capacity and is right otherwise."""
    good = rack(chance)
    stored = good.capacity + chance.one((1, 1, 2, 1000))
    given = near(chance, MOST_MOVED - stored)
    return Rack(good.capacity, stored, stored + given, given)


def over_taken_limit(chance):
    """A rack that took in more than the limit and is right otherwise."""
    good = rack(chance)
    taken = chance.one((MOST_MOVED + 1, MOST_MOVED + 1 + chance.below(9), 2**63, 2**64 - 1))
    return Rack(good.capacity, good.stored, taken, taken - good.stored)


def given_past_taken(chance):
    """A rack that gave out more than it took in, where the difference is what it stores in 64 bits alone."""
    taken, more = chance.below(1000), chance.between(1, 1000)
    stored = taken + more
    return Rack(chance.between(stored, MOST_CAPACITY), stored, taken, 2**64 - more)


def given_more(chance):
    """A rack that gave out a little more than it took in and stores nothing."""
    good = rack(chance)
    return Rack(good.capacity, 0, good.taken, good.taken + 1 + chance.below(3))


def not_the_difference(chance):
    """A rack whose stored value is not taken in less given out."""
    capacity = chance.between(10, MOST_CAPACITY)
    stored = chance.between(1, capacity - 1)
    given = chance.below(MOST_MOVED - 2**33)
    off = chance.one((1, -1, 2**32, 2**32 - stored, -stored))
    return Rack(capacity, stored, given + stored + off, given)


BREAKS = (over_capacity_limit, over_capacity, over_taken_limit, given_past_taken, given_more, not_the_difference)


def broken(chance, good):
    """The bytes of these racks with one rack that breaks the state rule."""
    after = list(good)
    after[chance.one((0, 15, chance.below(layout.RACKS)))] = chance.one(BREAKS)(chance)
    return layout.state_bytes(after)
