"""The five calls of document 01 on bytearrays. Each makes its tests in the order of the numbers and gives the number of
the first that applies; only an accepted call changes page or answer."""

from typing import NamedTuple

from second import hashed, layout, rules

RAM, DISK, NEITHER = 1, 2, 0


class Answer(NamedTuple):
    """What a call returns: 0 or the refusal's number, and its figures, which are 0 where there are none."""

    number: int
    stored: int = 0
    capacity: int = 0
    percent: int = 0
    total: int = 0


class Resumed(NamedTuple):
    """What resume returns: which record is current, and the record itself."""

    number: int
    part: bytes


def record_refusal(record):
    """The first of 3, 4 and 5 that applies to a record, or 0."""
    if len(record) != layout.RECORD_SIZE:
        return 3
    parts = layout.read_record(record)
    if parts.length != layout.RECORD_LENGTH_FIELD:
        return 3
    if parts.version != layout.VERSION:
        return 4
    if not rules.state_holds(layout.read_state(parts.state)):
        return 5
    return 0


def valid(page, record):
    """Whether the authenticator of a record is the one worked out from its own state and summary."""
    parts = layout.read_record(record)
    return parts.authenticator == hashed.authenticator(layout.page_key(page), parts.summary, parts.state)


def holds_summary(page, record):
    """Whether the record's summary is the page's."""
    return layout.read_record(record).summary == layout.page_summary(page)


def reaches_summary(page, record, request):
    """Whether the record's summary, moved on by the request, is the page's."""
    summary = layout.read_record(record).summary
    return hashed.next_summary(summary, bytes(request)) == layout.page_summary(page)


def step_refusal(page, record, request, answer, is_current):
    """The first of 1 to 11 that applies to a perform or a repeat, or 0."""
    if len(page) != layout.PAGE_SIZE:
        return 1
    if len(answer) < layout.RECORD_SIZE:
        return 2
    number = record_refusal(record)
    if number:
        return number
    if not rules.well_formed(request):
        return 6
    if not valid(page, record):
        return 7
    if not is_current():
        return 8
    racks = layout.read_state(layout.read_record(record).state)
    return rules.refusal(racks, layout.read_request(request))


def write_next(page, record, request, answer):
    """Writes the record that follows an accepted one, and gives the rack's new stored value and the next summary."""
    before, wanted = layout.read_record(record), layout.read_request(request)
    racks = rules.carried_out(layout.read_state(before.state), wanted)
    summary = hashed.next_summary(before.summary, bytes(request))
    answer[: layout.RECORD_SIZE] = hashed.sealed(layout.page_key(page), summary, layout.state_bytes(racks))
    return racks[wanted.rack].stored, summary


def open(page, answer):
    """Answers the first record; the page stays."""
    if len(page) != layout.PAGE_SIZE:
        return Answer(1)
    if len(answer) < layout.RECORD_SIZE:
        return Answer(2)
    if layout.page_summary(page) != layout.ZERO_SUMMARY:
        return Answer(13)
    first = hashed.sealed(layout.page_key(page), layout.ZERO_SUMMARY, layout.FIRST_STATE)
    answer[: layout.RECORD_SIZE] = first
    return Answer(0)


def perform(page, record, request, answer):
    """Carries a request out on the current record: writes the next record and puts its summary in the page."""
    number = step_refusal(page, record, request, answer, lambda: holds_summary(page, record))
    if number:
        return Answer(number)
    stored, summary = write_next(page, record, request, answer)
    page[: layout.SUMMARY_SIZE] = summary
    return Answer(0, stored)


def repeat(page, record, request, answer):
    """Answers again the record of the perform that moved the page last; the page stays."""
    number = step_refusal(page, record, request, answer, lambda: reaches_summary(page, record, request))
    if number:
        return Answer(number)
    stored, _ = write_next(page, record, request, answer)
    return Answer(0, stored)


def view_refusal(page, record, rack):
    """The first of view's tests 1 and 3 to 8 that applies, or 0."""
    if len(page) != layout.PAGE_SIZE:
        return 1
    number = record_refusal(record)
    if number:
        return number
    if rack >= layout.RACKS:
        return 6
    if not valid(page, record):
        return 7
    return 0 if holds_summary(page, record) else 8


def view(page, record, rack):
    """The figures of one rack of the current record, and the total over all racks."""
    number = view_refusal(page, record, rack)
    if number:
        return Answer(number)
    racks = layout.read_state(layout.read_record(record).state)
    total = rules.total(racks)
    if total >= 2**32:
        return Answer(12)
    seen = racks[rack]
    return Answer(0, seen.stored, seen.capacity, rules.percent(seen), total)


def resumable(page, record):
    """Whether resume takes a record as current."""
    if len(page) != layout.PAGE_SIZE or record_refusal(record):
        return False
    return valid(page, record) and holds_summary(page, record)


def resume(page, ram, disk):
    """Which record is current, with the one in RAM preferred, and the record itself."""
    if resumable(page, ram):
        return Resumed(RAM, bytes(ram))
    if resumable(page, disk):
        return Resumed(DISK, bytes(disk))
    return Resumed(NEITHER, b"")
