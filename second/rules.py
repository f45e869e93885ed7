"""The state rule, what a well-formed request is, the charge rules, and the figures of view."""

from second import layout
from second.layout import Rack

MOST_CAPACITY = 100_000_000
MOST_AMOUNT = 100_000_000
MOST_MOVED = 1_000_000_000_000_000  # of taken in and of given out

CAPACITY, CHARGE, DISCHARGE, MOVE = 1, 2, 3, 4


def rack_holds(rack):
    """Whether one rack keeps the state rule."""
    return (
        rack.capacity <= MOST_CAPACITY
        and rack.stored <= rack.capacity
        and rack.taken <= MOST_MOVED
        and rack.given <= rack.taken
        and rack.stored == rack.taken - rack.given
    )


def state_holds(racks):
    """Whether every rack keeps the state rule."""
    return all(rack_holds(rack) for rack in racks)


def well_formed(data):
    """Whether these bytes are a well-formed request."""
    if len(data) != layout.REQUEST_SIZE:
        return False
    request = layout.read_request(data)
    if (request.length, request.version) != (layout.REQUEST_LENGTH_FIELD, layout.VERSION):
        return False
    if not CAPACITY <= request.kind <= MOVE:
        return False
    if request.rack >= layout.RACKS or request.amount > MOST_AMOUNT:
        return False
    if request.amount == 0 and request.kind != CAPACITY:
        return False
    if request.kind == MOVE:
        return request.other < layout.RACKS and request.other != request.rack
    return request.other == 0


def charging(racks, request):
    """The rack that a request charges, or None."""
    return {CHARGE: racks[request.rack], MOVE: racks[request.other]}.get(request.kind)


def discharging(racks, request):
    """The rack that a request discharges, or None."""
    return racks[request.rack] if request.kind in (DISCHARGE, MOVE) else None


def refusal(racks, request):
    """The first of 9, 10 and 11 that applies to a well-formed request, or 0."""
    amount = request.amount
    into, out = charging(racks, request), discharging(racks, request)
    if into is not None and into.stored + amount > into.capacity:
        return 9
    if request.kind == CAPACITY and amount < racks[request.rack].stored:
        return 9
    if out is not None and amount > out.stored:
        return 10
    if into is not None and into.taken + amount > MOST_MOVED:
        return 11
    if out is not None and out.given + amount > MOST_MOVED:
        return 11
    return 0


def charged(rack, amount):
    """The rack after a charge."""
    return rack._replace(stored=rack.stored + amount, taken=rack.taken + amount)


def discharged(rack, amount):
    """The rack after a discharge."""
    return rack._replace(stored=rack.stored - amount, given=rack.given + amount)


def carried_out(racks, request):
    """The racks after a request that no charge rule refuses."""
    after = list(racks)
    at, amount = request.rack, request.amount
    if request.kind == CAPACITY:
        after[at] = after[at]._replace(capacity=amount)
    elif request.kind == CHARGE:
        after[at] = charged(after[at], amount)
    elif request.kind == DISCHARGE:
        after[at] = discharged(after[at], amount)
    else:
        after[at] = discharged(after[at], amount)
        after[request.other] = charged(after[request.other], amount)
    return after


def percent(rack: Rack):
    """How full a rack is, rounded down; 0 for a rack without capacity."""
    return 100 * rack.stored // rack.capacity if rack.capacity else 0


def total(racks):
    """What all racks store together."""
    return sum(rack.stored for rack in racks)
