"""Damages files of a book as commands and cuts leave it, and holds what status says to what is true.

A file has a byte bent, is cut short or grows, is lost, or is overwritten by or swapped with another; or the note is
set back to one from before the page last moved. Then status says of the last request 'booked' or 'not booked' only if
that is so, or that it can't be told, with an exit status of its own; and where it can't be told, or there is no current
record, no request is taken. A page that is set back to an older one is outside: it is the trusted memory.
"""

import collections
import itertools
import re
import shutil

from model import CAPACITY
from program import (AT_ITS_END, NO_RECORD, UNTOLD, Failure, check_stored, check_view, content, copy, expect, run,
                     says_none_booked, setting, settled_by, status_of, told_by)
from scenarios import answer_lost, booked, pending, refused, settled, situations

FILES = ["page", "book.a", "book.b", "request"]

# Situations in which the current record and the one before it are stored, and the page stands where the note says.
# There repeat gives one damaged record back, and the book goes on.
WHOLE = ["book.b current", "book.a current", "the same capacity before it", "a refused request before it",
         "a request before it noted, and not booked", "two equal requests booked",
         "a request booked, an equal one pending", "a request booked, an equal one refused",
         "a request refused, an equal one pending", "an answer recovered, the next request pending"]

# A byte of each field, the first and the last of the long ones.
PLACES = {"page": [0, 31, 32, 63], "book.a": [0, 2, 6, 78, 387, 418, 419, 450], "book.b": [1, 80, 400, 430],
          "request": [0, 2, 3, 4, 12, 20, 21, 24, 30, 31, 62, 63, 64, 73, 74, 105, 106, 109]}


# ---- Ways to damage one file, each a function of the folder, with words for it.


def bent(name, place):
    def bend(book):
        data = bytearray((book / name).read_bytes())
        data[place] ^= 0x10
        (book / name).write_bytes(data)
    return f"byte {place} of {name} bent", bend


def sized(name, size_of, words):
    def size(book):
        data = (book / name).read_bytes()
        (book / name).write_bytes((data + b"\0")[:size_of(len(data))])
    return f"{name} {words}", size


def lost(name):
    return f"{name} lost", lambda book: (book / name).unlink()


def overwritten(name, other):
    return f"{name} overwritten by {other}", lambda book: (book / name).write_bytes((book / other).read_bytes())


def swapped(name, other):
    def swap(book):
        first, second = (book / name).read_bytes(), (book / other).read_bytes()
        (book / name).write_bytes(second)
        (book / other).write_bytes(first)
    return f"{name} swapped with {other}", swap


def set_back(words, note):
    return f"the note set back to that of {words}", lambda book: (book / "request").write_bytes(note)


def of_one(name, there):
    yield from (bent(name, place) for place in PLACES[name])
    yield sized(name, lambda n: 0, "emptied")
    yield sized(name, lambda n: n // 2, "cut in half")
    yield sized(name, lambda n: n - 1, "cut by a byte")
    yield sized(name, lambda n: n + 1, "longer by a byte")
    yield lost(name)
    yield from (overwritten(name, other) for other in there if other != name)


def of_two(there):
    yield from (swapped(*names) for names in itertools.combinations(there, 2))
    for names in itertools.combinations(there, 2):
        for first, second in itertools.product((lost, lambda name: bent(name, PLACES[name][-1])), repeat=2):
            (words, damage), (more, further) = first(names[0]), second(names[1])
            yield f"{words}, {more}", lambda book, a=damage, b=further: (a(book), b(book))


def damages(folder, older):
    """Each damage, and whether it is confined to one record."""
    there = [name for name in FILES if (folder / "book" / name).exists()]
    for name in there:
        for words, damage in of_one(name, there):
            yield words, damage, name.startswith("book")
    for words, damage in itertools.chain(of_two(there), older):
        yield words, damage, False


# ---- What is held to be so.


def check_told(book, status):
    """What status says is true."""
    told, number = told_by(status.said), settled_by(status.said)
    if told is not None:
        expect(told == book.told(), f"status says {told}, and true is {book.told()}")
        return ("booked" if told[1] else "not booked") if told[0] else "none given"
    if says_none_booked(status.said):
        expect(book.count == 0, "status says that nothing is booked")
        return "none booked"
    if number is not None:
        expect(number == book.count, f"status says that {number} was settled")
        return "settled"
    shown = re.search(r"^request  (?:(\d+) \((.*)\)|its note is (?:lost|damaged)|the note does not fit what is "
                      r"stored): it can't be told ", status.said, re.M)
    expect(shown or (status.exit == NO_RECORD and "request  " not in status.said), f"status says {status.said}")
    expect(status.exit in (NO_RECORD, UNTOLD), f"exit status {status.exit} where it can't be told")
    expect(not shown or not shown[1] or (int(shown[1]), shown[2]) == (book.number, book.asked), "another is shown")
    return "can't be told"


def check_taken(folder, book):
    """The next request is booked on the book that status has told of."""
    check_view(folder, book)
    done = run(folder, ["-n", str(book.count + 1), "capacity", "3", "72002"])
    expect(done.exit == 0, f"a request ends with {done.exit}: {done.said}")
    book = book.given(CAPACITY, 3, 0, 72002, 0)
    expect(status_of(folder) == book.told(), "status does not tell of the next request")
    check_stored(folder, book)


def check_not_taken(folder, status):
    was = content(folder)
    for words in ["capacity", "3", "72002"], ["-n", "1", "capacity", "3", "72002"]:
        done = run(folder, words)
        expect(done.exit in (NO_RECORD, UNTOLD), f"after a status of {status.exit} a request ends with {done.exit}")
    expect(content(folder) == was, "a request that is not taken has changed a file")


def check_damage(folder, book, damage):
    damage(folder / "book")
    setting.restarts += 1
    status = run(folder, ["status"], AT_ITS_END)
    said = check_told(book, status)
    if status.exit == 0:
        check_taken(folder, book)
    else:
        check_not_taken(folder, status)
    if status.exit == UNTOLD:
        expect(run(folder, ["settle", str(book.count)]).exit == 0, "the true number can't be settled")
        check_taken(folder, book)
    return said, status.exit == 0


# ---- In every situation.


def all_situations():
    """Those of the cuts, and some in which two requests ask the same, or one after the other is cut."""
    there = situations()
    on_a = there["book.a current"]
    there["two equal requests booked"] = booked(*on_a, "charge 5 600", "charge 5 600")
    there["a request booked, an equal one pending"] = pending(*booked(*on_a, "charge 5 600"), "charge 5 600")
    there["a request booked, an equal one refused"] = refused(*booked(*on_a, "charge 3 2000"), "charge 3 2000")
    there["a request refused, an equal one pending"] = pending(*refused(*on_a, "charge 3 2001"), "charge 3 2001")
    there["a new book, a request pending"] = pending(*there["a new book"], "capacity 3 72000")
    there["a number settled"] = settled(*on_a)
    there["a number settled, the next request pending"] = pending(*there["a number settled"], "charge 5 7")
    there["an answer recovered, the next request pending"] = pending(*answer_lost(*on_a, "charge 5 600"), "charge 5 7")
    return there


def older_notes(there, where):
    """Notes of the same book from before its page last moved."""
    for name in "a new book", "book.b current":
        folder, book = there[name]
        if there[where][1].count > book.count:
            yield set_back(name, (folder / "book" / "request").read_bytes())


def check_damages():
    tally = collections.Counter()
    there = all_situations()
    for where, (situation, book) in there.items():
        for words, damage, one_record in damages(situation, older_notes(there, where)):
            folder = copy(situation)
            try:
                said, went_on = check_damage(folder, book, damage)
                expect(went_on or not (one_record and where in WHOLE), "one damaged record stops the book")
            except Failure as failure:
                raise Failure(f"{words}, {where}: {failure}") from None
            tally[said] += 1
            shutil.rmtree(folder)
    yield f"{sum(tally.values())} damages in {len(there)} situations: what status says is true each time"
    yield "it says " + ", ".join(f"'{said}' {n} times" for said, n in sorted(tally.items()))
