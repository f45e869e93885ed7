"""The forms of document 01 in bytes: page, rack, record and request. Every number is big-endian."""

import struct
from typing import NamedTuple

RACKS = 16
RACK_SIZE = 24
STATE_SIZE = RACKS * RACK_SIZE
SUMMARY_SIZE = 32
AUTHENTICATOR_SIZE = 32

PAGE_SIZE = 64
RECORD_SIZE = 451
RECORD_LENGTH_FIELD = 449
REQUEST_SIZE = 10
REQUEST_LENGTH_FIELD = 8
VERSION = 1

HEADER = struct.pack(">HB", RECORD_LENGTH_FIELD, VERSION)
ZERO_SUMMARY = bytes(SUMMARY_SIZE)
FIRST_STATE = bytes(STATE_SIZE)

_STATE_FORM = struct.Struct(">" + "IIQQ" * RACKS)
_REQUEST_FORM = struct.Struct(">HBBBBI")
_STATE_AT = len(HEADER)
_SUMMARY_AT = _STATE_AT + STATE_SIZE
_AUTHENTICATOR_AT = _SUMMARY_AT + SUMMARY_SIZE


class Rack(NamedTuple):
    """One rack's figures, in ampere-seconds."""

    capacity: int
    stored: int
    taken: int
    given: int


class Record(NamedTuple):
    """The parts of 451 bytes."""

    length: int
    version: int
    state: bytes
    summary: bytes
    authenticator: bytes


class Request(NamedTuple):
    """The parts of 10 bytes."""

    length: int
    version: int
    kind: int
    rack: int
    other: int
    amount: int


def page_summary(page):
    """The first half of a page."""
    return bytes(page[:SUMMARY_SIZE])


def page_key(page):
    """The second half of a page."""
    return bytes(page[SUMMARY_SIZE:PAGE_SIZE])


def page_bytes(summary, key):
    """A page with this summary and key."""
    return summary + key


def read_record(data):
    """The parts of a record, whose size has to be right already."""
    length, version = struct.unpack_from(">HB", data)
    return Record(
        length,
        version,
        bytes(data[_STATE_AT:_SUMMARY_AT]),
        bytes(data[_SUMMARY_AT:_AUTHENTICATOR_AT]),
        bytes(data[_AUTHENTICATOR_AT:RECORD_SIZE]),
    )


def record_bytes(state, summary, authenticator):
    """A good record's bytes."""
    return HEADER + state + summary + authenticator


def read_state(state):
    """The sixteen racks of a state's 384 bytes."""
    figures = _STATE_FORM.unpack(state)
    return [Rack(*figures[at : at + 4]) for at in range(0, len(figures), 4)]


def state_bytes(racks):
    """The 384 bytes of sixteen racks."""
    return _STATE_FORM.pack(*(figure for rack in racks for figure in rack))


def read_request(data):
    """The parts of a request, whose size has to be right already."""
    return Request(*_REQUEST_FORM.unpack(data))


def request_bytes(kind, rack, other, amount, length=REQUEST_LENGTH_FIELD, version=VERSION):
    """A request's bytes; each field is written as it is given, good or not."""
    return _REQUEST_FORM.pack(length, version, kind, rack, other, amount)
