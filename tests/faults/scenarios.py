"""Commands, and the books that they are given on."""

import dataclasses
import pathlib

from model import CAPACITY, CHARGE, DISCHARGE, MOVE, Book
from program import KILLED, copy, expect, new_folder, page_of, run

KINDS = {"capacity": CAPACITY, "charge": CHARGE, "discharge": DISCHARGE, "move": MOVE}


def asked_by(words):
    """The kind, rack, other and amount of a command's words, or None if it is no request."""
    kind = KINDS.get(words[0])
    if kind is None:
        return None
    numbers = [int(word) for word in words[1:]]
    return kind, numbers[0], numbers[1] if kind == MOVE else 0, numbers[-1]


@dataclasses.dataclass
class Scenario:
    """A command on a book, and what it makes of it."""

    name: str
    folder: pathlib.Path
    before: Book
    words: list
    refused: int = 0

    def asked(self):
        return asked_by(self.words)

    def from_book(self, book):
        """The book after the command, given on this one."""
        asked = self.asked()
        return book.given(*asked, self.refused) if asked else book

    def possible(self):
        """What a cut may leave: the request not noted, noted and not booked, or booked."""
        books = [self.before, self.from_book(self.before)]
        if self.asked():
            books.append(self.before.noted(*self.asked()))
        return books


# ---- Books in all conditions.


def open_book():
    folder = new_folder()
    expect(run(folder, ["open"]).exit == 0, "open is refused")
    return folder


def booked(folder, book, *lines):
    """The folder and the book with more commands, which are not cut."""
    folder = copy(folder)
    for line in lines:
        scenario = Scenario(line, folder, book, line.split())
        expect(run(folder, scenario.words).exit == 0, f"{line} is refused")
        book = scenario.from_book(book)
    return folder, book


def cut_behind(folder, book, line, name, which=0):
    """After a cut behind the first, or the last, replacing of a file of this name. The page says what the book is."""
    words = line.split()
    operations = run(copy(folder), words).operations
    places = [i for i, operation in enumerate(operations) if f"rename to {name}" in operation]
    folder = copy(folder)
    # The operation behind a renaming is the fsync that brings it to the disk.
    expect(run(folder, words, places[which] + 2, "after").exit == KILLED, "the cut did not come")
    moved = page_of(folder)[0] != book.summary
    return folder, book.given(*asked_by(words), 0) if moved else book.noted(*asked_by(words))


def pending(folder, book, line):
    """After a cut that came when the request had been noted, before the page moved."""
    return cut_behind(folder, book, line, "request")


def answer_lost(folder, book, line):
    """After a cut that came when the page had moved, before the answer was stored."""
    return cut_behind(folder, book, line, "page")


def answer_stored(folder, book, line):
    """After a cut that came when the answer had been stored, before the request was noted as booked."""
    return cut_behind(folder, book, line, "book.", -1)


def page_of_before(folder, book, line):
    """After a cut that left the page of before, but an answer that has reached the disk."""
    page = (folder / "book" / "page").read_bytes()
    folder, _ = answer_stored(folder, book, line)
    (folder / "book" / "page").write_bytes(page)
    return folder, book.noted(*asked_by(line.split()))


def refused(folder, book, line):
    folder = copy(folder)
    expect(run(folder, line.split()).exit > 0, f"{line} is not refused")
    return folder, book.noted(*asked_by(line.split()))


def damaged(folder, book):
    """With one bit of the current record changed."""
    folder = copy(folder)
    for file in (folder / "book").glob("book.?"):
        data = bytearray(file.read_bytes())
        if bytes(data) == book.record(page_of(folder)[1]):
            data[20] ^= 1
            file.write_bytes(data)
    return folder, book


def older_record_lost(folder, book, line):
    """A request booked and not noted, and the record that it was for lost: it can't be told."""
    folder, book = answer_stored(folder, book, line)
    for file in (folder / "book").glob("book.?"):
        if file.read_bytes() != book.record(page_of(folder)[1]):
            file.unlink()
    return folder, book


def settled(folder, book):
    """With the note lost, and the true number settled."""
    folder = copy(folder)
    (folder / "book" / "request").unlink()
    expect(run(folder, ["settle", str(book.count)]).exit == 0, "the true number can't be settled")
    return folder, book


def situations():
    """Books as commands and cuts leave them, by a name."""
    opened = open_book(), Book()
    on_b = booked(*opened, "capacity 3 72000", "capacity 5 50000", "charge 3 70000")
    on_a = booked(*on_b, "charge 5 10000")
    refused_last = refused(*on_a, "charge 3 2001")
    return {
        "a new book": opened,
        "book.b current": on_b,
        "book.a current": on_a,
        "the same capacity before it": booked(*on_b, "capacity 3 72000"),
        "a refused request before it": refused_last,
        "a request before it noted, and not booked": pending(*on_a, "charge 5 600"),
        "the answer before it lost": answer_lost(*on_a, "charge 5 600"),
        "the answer before it stored, and not noted": answer_stored(*on_a, "charge 5 600"),
        "the answer before it stored, but the page of before": page_of_before(*on_a, "charge 5 600"),
        "a refused request before it, and the current record damaged": damaged(*refused_last),
        "the current record damaged": damaged(*on_a),
    }


def scenarios():
    there = situations()
    requests = ["capacity 3 80000", "charge 5 600", "discharge 3 400", "move 3 5 400"]
    given = {
        "a new book": ["capacity 3 72000", "open"],
        "book.b current": requests + ["view", "view 3", "status"],
        "book.a current": ["charge 5 600", "charge 5 10000", "status"],
        "the same capacity before it": ["capacity 3 72000"],
        "a refused request before it": ["charge 3 1000", "status"],
        "a request before it noted, and not booked": ["charge 5 600", "discharge 3 400", "status"],
        "the answer before it lost": requests + ["view", "status"],
        "the answer before it stored, and not noted": ["charge 5 600", "discharge 3 400", "status"],
        "the answer before it stored, but the page of before": ["charge 5 600", "discharge 3 400", "status"],
        "a refused request before it, and the current record damaged": ["charge 5 600", "status"],
        "the current record damaged": ["charge 5 600", "status"],
    }
    yield Scenario("open in an empty directory", new_folder(), None, ["open"])
    for where, lines in given.items():
        for line in lines:
            yield Scenario(f"{line}, {where}", *there[where], line.split())
    for where in "book.a current", "the answer before it lost":
        yield Scenario(f"a refused charge, {where}", *there[where], "charge 3 2001".split(), refused=9)
        yield Scenario(f"a refused move, {where}", *there[where], "move 5 3 2001".split(), refused=9)
