#!/usr/bin/env python3
"""Cuts the power of the site program at every operation of every command, and holds what is left to a model.

    tests/faults/faults.py SITE SHIM [PART..]    the built site program, and shim.c as a shared object; a part is one
                                                 of plain, damages, retries and cuts, and all are played unless given

After each cut the program is started again (status, then view): the book is that of before or that of after and
nothing else; it is that of after if the program had said so; status tells which of the two it is; and the same command,
given again, is booked on it. The same holds if a second cut comes in the restart after the first. A line with -n is
booked once, however often it is cut and given again. Then files are damaged (damages.py). Ends at the first failure
with a sentence.
"""

import os
import pathlib
import shutil
import sys
import tempfile

sys.dont_write_bytecode = True
sys.path.insert(0, str(pathlib.Path(__file__).resolve().parent))
from damages import check_damages
from model import CAPACITY, Book
from plain import check_plain
from program import (AT_ITS_END, FAILED, KILLED, NO_RECORD, OTHER_NUMBER, Failure, check_stored, check_view,
                     content, copy, expect, names_held, page_of, run, says_booked, setting, status_of)
from scenarios import scenarios, situations

STOPS = ["before", "torn", "after", "lost"]
GOES_ON = ["fail", "short", "signal"]
OF_WRITES_ALONE = ["torn", "short", "signal"]

# The operations of a status: an fsync for what others may have left. It changes nothing.
RESTING = 1


def check_end(scenario, done, way):
    """How a program ends that is cut, or goes on after a fault."""
    if way in STOPS:
        expect(done.exit == KILLED, f"the cut did not come: exit status {done.exit}")
    elif way == "fail":
        expect(done.exit == FAILED, f"exit status {done.exit} where a file could not be written: {done.said}")
        expect(not says_booked(done.said), f"said to be booked where a file could not be written: {done.said}")
    else:
        expect(done.exit == scenario.refused, f"exit status {done.exit}: {done.said}")
        books = scenario.asked() is not None and not scenario.refused
        expect(says_booked(done.said) == books, f"said: {done.said}")


def check_after(scenario, folder, told):
    """The restart after a cut, and the same command again."""
    said = status_of(folder)
    summary, _ = page_of(folder)
    left = [b for b in scenario.possible() if b.summary == summary and b.told() == said]
    expect(left, f"page and status do not fit the book of before or that of after: status says {said}")
    book = left[0]
    expect(not told or book == scenario.from_book(scenario.before), "a request that was said to be booked is lost")
    check_view(folder, book)
    check_end(scenario, run(folder, scenario.words), "")
    book = scenario.from_book(book)
    expect(status_of(folder) == book.told(), "status does not tell of the command given again")
    check_view(folder, book)
    if scenario.asked():
        check_stored(folder, book)


def check_after_open(scenario, folder, told):
    """The same for open: what is there is completed by another open, and a page that is there is not replaced."""
    setting.restarts += 1
    status = run(folder, ["status"], AT_ITS_END)
    ends = [0] if told else [0, NO_RECORD]
    expect(status.exit in ends, f"status ends with {status.exit}: {status.said}")
    page = folder / "book" / "page"
    was = page.read_bytes() if page.exists() else None
    again = run(folder, scenario.words)
    expect(again.exit == 0, f"open, given again, ends with {again.exit}: {again.said}")
    expect(was is None or page.read_bytes() == was, "open has replaced a page")
    expect(status_of(folder) == Book().told(), "status tells of a request that was not given")
    check_view(folder, Book())
    check_stored(folder, Book())
    expect(run(folder, ["capacity", "3", "5"]).exit == 0, "nothing can be booked on the open book")


def check(scenario, folder, told):
    (check_after_open if scenario.words[0] == "open" else check_after)(scenario, folder, told)


# ---- The cuts.


def cuts(operations):
    """Each operation with each way of cutting it, and words for it."""
    for i, line in enumerate(operations):
        for way in STOPS + GOES_ON:
            if way not in OF_WRITES_ALONE or line.split()[1] == "write":
                yield i + 1, way, f"{way} {line}"
    yield AT_ITS_END, "", "at its end"


def play(scenario):
    """Every cut of a command, with the second cuts after it. Gives how many operations, cuts and second cuts it has."""
    uncut = run(copy(scenario.folder), scenario.words)
    check_end(scenario, uncut, "")
    count = seconds = 0
    seen = set()
    for at, way, where in cuts(uncut.operations):
        count += 1
        folder = copy(scenario.folder)
        try:
            done = run(folder, scenario.words, at, way)
            check_end(scenario, done, way)
            told = done.exit == 0
            if content(folder) not in seen:
                seen.add(content(folder))
                seconds += second_cuts(scenario, folder, told)
            check(scenario, folder, told)
        except Failure as failure:
            raise Failure(f"{scenario.name}: {where}: {failure}") from None
        shutil.rmtree(folder)
    return len(uncut.operations), count, seconds


def second_cuts(scenario, first, told):
    """Cuts in the restart, where that has something to recover or where a name is not on the disk yet."""
    restart = run(copy(first), ["status"])
    expect(len(restart.operations) <= RESTING, "status writes")
    if not names_held(first):
        return 0
    count = 0
    for at, way, where in cuts(restart.operations):
        count += 1
        folder = copy(first)
        try:
            done = run(folder, ["status"], at, way)
            expect(way not in STOPS or done.exit == KILLED, "the cut did not come")
            expect(way != "fail" or done.exit == FAILED, f"exit status {done.exit} where a file could not be written")
            check(scenario, folder, told)
        except Failure as failure:
            raise Failure(f"then {where} of the restart: {failure}") from None
        shutil.rmtree(folder)
    return count


def check_retries():
    """A line with -n, cut and given again: it is booked once."""
    count = 0
    for where, (before, book) in situations().items():
        words = ["-n", str(book.count + 1), "capacity", "3", "72001"]
        after = book.given(CAPACITY, 3, 0, 72001, 0)
        for at, way, place in cuts(run(copy(before), words).operations):
            count += 1
            folder = copy(before)
            run(folder, words, at, way)
            try:
                ends = [run(folder, words).exit for _ in range(2)]
                expect(ends in ([0, OTHER_NUMBER], [OTHER_NUMBER] * 2), f"given again it ends with {ends}")
                expect(page_of(folder)[0] == after.summary, "it is not booked once")
            except Failure as failure:
                raise Failure(f"a line with -n, {where}: {place}: {failure}") from None
            shutil.rmtree(folder)
    yield f"{count} cuts of a line with -n: it is booked once"


def play_all():
    commands = {}
    for scenario in scenarios():
        sums = commands.setdefault(scenario.words[0], [0, 0, 0, 0])
        for i, n in enumerate((1, *play(scenario))):
            sums[i] += n
    for name, sums in [*commands.items(), ("in all", [sum(column) for column in zip(*commands.values())])]:
        yield "{:9} {:2} situations, {:3} operations, {:4} cuts, {:4} second cuts".format(name, *sums)


PARTS = {"plain": check_plain, "damages": check_damages, "retries": check_retries, "cuts": play_all}


def main(names):
    for name in names or PARTS:
        for line in PARTS[name]():
            print(f"faults: {line}", flush=True)
    print(f"faults: {setting.restarts} restarts, {setting.runs} runs: nothing is lost, and nothing is booked twice")


if __name__ == "__main__":
    if len(sys.argv) < 3 or not set(sys.argv[3:]) <= set(PARTS):
        sys.exit(__doc__)
    setting.site, setting.shim = (str(pathlib.Path(word).resolve()) for word in sys.argv[1:3])
    # In memory where that is to be had: no disk is needed, since the shim says what a disk would have kept.
    with tempfile.TemporaryDirectory(dir="/dev/shm" if os.path.isdir("/dev/shm") else None) as setting.top:
        try:
            main(sys.argv[3:])
        except Failure as failure:
            sys.exit(f"faults: FAILED: {failure}")
