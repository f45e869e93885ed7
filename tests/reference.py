#!/usr/bin/env python3
"""Holds the worked example of docs/REFERENCE.md to the second program.

    tests/reference.py [DOCUMENT]    DOCUMENT is docs/REFERENCE.md unless it is given

The bytes of the example's text block, and the answers of the table behind it, have to be those that the second program
gives for the same page and calls.
"""

import pathlib
import re
import sys

sys.dont_write_bytecode = True
ROOT = pathlib.Path(__file__).resolve().parent.parent
sys.path.insert(0, str(ROOT))
from second import hashed, keeper, layout, rules

HEADING = "## Worked example"
RACK = 3
KEY = bytes(range(32))
ROOM = layout.request_bytes(rules.CAPACITY, RACK, 0, 72_000)
CHARGE = layout.request_bytes(rules.CHARGE, RACK, 0, 3_600)


def failed(why):
    sys.exit(f"reference: FAILED: {why}")


def answered(call, *lent):
    """The record that a call answers, which it has to."""
    answer = bytearray(layout.RECORD_SIZE)
    number = call(*lent, answer).number
    if number != 0:
        failed(f"the second program refuses {call.__name__} with {number}")
    return answer


# ---- the text block: what the calls are given and make


def spaced(data):
    """Bytes apart, for forms."""
    return data.hex(" ").upper()


def of_page(page):
    return [("bytes 0 to 31", layout.page_summary(page).hex()), ("bytes 32 to 63", layout.page_key(page).hex())]


def of_record(record):
    parts = layout.read_record(record)
    at = RACK * layout.RACK_SIZE
    return [
        (f"rack {RACK}", spaced(parts.state[at : at + layout.RACK_SIZE])),
        ("summary", parts.summary.hex()),
        ("state hash", hashed.state_hash(parts.state).hex()),
        ("binding", hashed.binding(parts.summary, parts.state).hex()),
        ("authenticator", parts.authenticator.hex()),
    ]


def block(fresh, page, first, second, third):
    """The lines of the block."""
    parts = {
        "page": of_page(fresh),
        "open: the first record": [("first bytes", spaced(first[:3])), *of_record(first)],
        "perform, capacity: the second record": [("request", spaced(ROOM)), *of_record(second)],
        "perform, charge: the third record": [("request", spaced(CHARGE)), *of_record(third)],
        "page afterwards": of_page(page)[:1],
    }
    rows = ("\n".join([name, *(f"  {what:<16}{value}" for what, value in part)]) for name, part in parts.items())
    return "\n\n".join(rows).split("\n")


# ---- the table: what the page that is left gives


def with_figures(record, rack, **figures):
    """The record with other figures of a rack, and the authenticator as it was."""
    parts = layout.read_record(record)
    racks = layout.read_state(parts.state)
    racks[rack] = racks[rack]._replace(**figures)
    return layout.record_bytes(layout.state_bytes(racks), parts.summary, parts.authenticator)


def table(page, second, third):
    """The rows of the table."""

    def viewed(record):
        return keeper.view(page, record, RACK)

    def number(call, record):
        return call(bytearray(page), record, CHARGE, bytearray(layout.RECORD_SIZE)).number

    seen, again = viewed(third), answered(keeper.repeat, page, second, CHARGE)
    figures = f"stored {seen.stored}, capacity {seen.capacity}, percent {seen.percent}, total {seen.total}"
    roomier, fuller = with_figures(third, 0, capacity=1), with_figures(third, RACK, stored=seen.stored + 1)
    return [
        f"| view of the third record, rack 3 | {seen.number}: {figures} |",
        f"| view of the second record, rack 3 | {viewed(second).number}, and 0 for each figure |",
        f"| perform of the second record with the charge | {number(keeper.perform, second)} |",
        f"| repeat of the second record with the charge | 0, and the {'third' if again == third else 'wrong'} record |",
        f"| repeat of the third record with the charge | {number(keeper.repeat, third)} |",
        f"| resume, the second record in RAM, the third from disk | {keeper.resume(page, second, third).number} |",
        f"| open | {keeper.open(page, bytearray(layout.RECORD_SIZE)).number} |",
        f"| view of the third record, with capacity 1 put in rack 0 | {viewed(roomier).number} |",
        f"| view of the third record, with 1 more stored in rack 3 | {viewed(fuller).number} |",
    ]


# ---- what stands in the document


def written(document):
    """The lines of the first text block behind the heading, and of the first table behind that, without its head."""
    if not document.is_file():
        failed(f"{document} is missing")
    _, heading, rest = document.read_text("utf-8").partition(f"\n{HEADING}\n")
    found = re.search(r"^```text\n(.*?)\n```$.*?^\|---\|---\|\n((?:\|[^\n]*\n)+)", rest, re.M | re.S)
    if not heading or not found:
        failed(f"{document.name} has no text block and table behind '{HEADING}'")
    return found[1].split("\n"), found[2].splitlines()


def hold(what, stands, right):
    """Holds the lines that stand in the document to the right ones."""
    for number, (mine, theirs) in enumerate(zip(right, stands), 1):
        if mine != theirs:
            failed(f"line {number} of the example's {what} is '{theirs}', where the second program gives '{mine}'")
    if len(stands) != len(right):
        failed(f"the example's {what} has {len(stands)} lines, where the second program gives {len(right)}")


def main():
    document = pathlib.Path(sys.argv[1]) if len(sys.argv) > 1 else ROOT / "docs" / "REFERENCE.md"
    fresh = layout.page_bytes(layout.ZERO_SUMMARY, KEY)
    page = bytearray(fresh)
    first = answered(keeper.open, page)
    second = answered(keeper.perform, page, first, ROOM)
    third = answered(keeper.perform, page, second, CHARGE)
    in_block, in_table = written(document)
    made, rows = block(fresh, page, first, second, third), table(page, second, third)
    hold("block", in_block, made)
    hold("table", in_table, rows)
    values = sum(line.startswith("  ") for line in made)
    print(f"reference: {values} values and {len(rows)} answers of the worked example are those of the second program")


if __name__ == "__main__":
    main()
