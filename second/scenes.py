"""Calls to begin from: all that is offered is valid and current, under a key that is known here."""

from second import hashed, layout, requests, states
from second.script import Call


def answer_buffer(chance):
    """A buffer with room for an answer, full of random bytes."""
    return chance.bytes(chance.one((451, 451, 451, 452, 453 + chance.below(571), 1024)))


def step(chance, letter, key, record, request):
    """A perform or a repeat for which this record is current."""
    summary = layout.read_record(record).summary
    if letter == "r":
        summary = hashed.next_summary(summary, request)
    page = layout.page_bytes(summary, key)
    return Call(letter, {"page": page, "record": record, "request": request, "answer": answer_buffer(chance)})


def some_record(chance, key):
    """A valid record with racks of any kind and any summary."""
    summary = chance.one((chance.bytes(32), chance.bytes(32), layout.ZERO_SUMMARY))
    return hashed.sealed(key, summary, layout.state_bytes(states.racks(chance)))


def some_step(chance, letter, key):
    """A perform or a repeat that is accepted."""
    record = some_record(chance, key)
    request = requests.fitting(chance, layout.read_state(layout.read_record(record).state))
    return step(chance, letter, key, record, request)


def tight_step(chance, letter, key):
    """A perform or a repeat that only the charge rules may refuse."""
    racks, request = requests.tight(chance)
    return step(chance, letter, key, hashed.sealed(key, chance.bytes(32), layout.state_bytes(racks)), request)


def some_call(chance, letter, key):
    """A call that is accepted: of resume, one where both records are current."""
    if letter == "o":
        return Call("o", {"page": layout.page_bytes(layout.ZERO_SUMMARY, key), "answer": answer_buffer(chance)})
    if letter in "pr":
        return some_step(chance, letter, key)
    record = some_record(chance, key)
    page = layout.page_bytes(layout.read_record(record).summary, key)
    if letter == "v":
        return Call("v", {"page": page, "record": record}, chance.below(layout.RACKS))
    return Call("u", {"page": page, "ram": record, "disk": record})
