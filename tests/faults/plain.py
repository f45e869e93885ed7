"""The site program without cuts: how it ends, what it says and changes, and that the shim sees all that it does."""

import fcntl
import os
import pathlib
import re
import subprocess
import time

from model import Book
from program import (FAILED, NO_RECORD, OTHER_NUMBER, UNTOLD, USAGE, check_stored, check_view, content, copy, expect,
                     new_folder, run, says_booked, setting, settled_by, status_of, table_of, told_by)
from scenarios import KINDS, answer_lost, asked_by, booked, older_record_lost, open_book, pending

HEADER = pathlib.Path(__file__).resolve().parents[2] / "host" / "keeper.h"

# Functions that change files past the shim; the site program may use none of them.
UNSEEN = """creat openat fopen freopen fdopen pwrite writev pwritev truncate ftruncate link symlink linkat mkdir rmdir
remove renameat renameat2 unlinkat mmap syscall sendfile copy_file_range posix_fallocate fallocate dprintf aio_write
open64 fopen64 creat64 pwrite64 truncate64 ftruncate64 mkstemp tmpfile system popen fork vfork execve posix_spawn
""".split()

# A line, and the word that the message has to name.
NOT_UNDERSTOOD = {"": "''", "fly": "'fly'", "-x view": "'-x'", "--colour view": "'--colour'", "charge 3": "'charge'",
                  "charge 3 x": "'x'", "charge -1 5": "'-1'", "charge 3 -5": "'-5'", "charge 256 5": "'256'",
                  "charge 3 4294967296": "'4294967296'", "charge 3 9999999999999999999": "'9999999999999999999'",
                  "charge 3 0x10": "'0x10'", "charge 3 5 7": "'charge'", "move 1 2": "'move'", "move 3 256 1": "'256'",
                  "view x": "'x'", "view 1 2": "'view'", "open 3": "'open'", "status 3": "'status'",
                  "settle": "'settle'", "settle -1": "'-1'", "-n 0 charge 3 1": "'0'", "-n x charge 3 1": "'x'",
                  "-n 1000000000000000000 charge 3 1": "'1000000000000000000'", "-n 3 view": "'-n'",
                  "settle 999999999999999999": "'999999999999999999'", "-xh": "'-x'",
                  "view -n": "'-n'", "-d": "'-d'"}

# On racks 3 and 5, with 70,000 of 72,000 and 10,000 of 50,000.
REFUSED = {"charge 3 0": 6, "charge 16 1": 6, "capacity 3 100000001": 6, "charge 255 4294967295": 6, "move 3 3 1": 6,
           "charge 3 2001": 9, "capacity 3 69999": 9, "move 3 5 40001": 9, "move 5 3 10001": 9, "move 5 3 2001": 9,
           "discharge 3 70001": 10, "move 5 6 10001": 9, "view 16": 6, "open": 13}


def two_racks():
    lines = "capacity 3 72000", "capacity 5 50000", "charge 3 70000", "charge 5 10000"
    return booked(open_book(), Book(), *lines)


def plainly(folder, words, **streams):
    """The program without the shim, and with these streams."""
    return subprocess.run([setting.site, *words], cwd=folder / "book", text=True, timeout=60, **streams)


# ---- Words that are not understood, refusals, and nothing there.


def check_not_understood():
    folder, _ = two_racks()
    was = content(folder)
    for line, word in NOT_UNDERSTOOD.items():
        done = plainly(folder, line.split(), capture_output=True)
        expect(done.returncode == USAGE, f"'{line}' is not answered by {USAGE}")
        expect(word in done.stderr, f"'{line}': the message does not name {word}: {done.stderr}")
    expect(content(folder) == was, "a command that is not understood has changed a file")
    return len(NOT_UNDERSTOOD)


def check_refused():
    folder, book = two_racks()
    for line, number in REFUSED.items():
        done = run(folder, line.split())
        expect(done.exit == number and f"refused with {number}: " in done.said, f"'{line}' ends with {done.exit}")
        book = book.noted(*asked_by(line.split())) if line.split()[0] in KINDS else book
        expect(status_of(folder) == book.told(), f"'{line}' has changed what status says")
        check_view(folder, book)
        check_stored(folder, book)
    return len(REFUSED)


def check_nothing_there():
    folder, empty = two_racks()[0], new_folder()
    for line in "view", "status", "charge 3 1", "settle 1":
        expect(run(empty, line.split()).exit == NO_RECORD, f"'{line}' is not answered by {NO_RECORD} where nothing is")
    expect(run(empty, ["-d", "nowhere", "view"]).exit == FAILED, f"a directory that is not there is not {FAILED}")
    expect(run(empty, ["-d", str(folder / "book"), "view"]).exit == 0, "another directory is not looked at")
    for line in "-h", "--help":
        expect("usage: " in run(empty, [line]).said, f"{line} is not answered")
    packed = int(re.search(r"^#define KEEPER_VERSION (\d+)$", HEADER.read_text(), re.M)[1])
    version = f"site {packed // 10000}.{packed // 100 % 100}.{packed % 100}\n"
    expect(run(empty, ["--version"]).said == version, "--version is not the header's")
    return 9


# ---- What books twice if the program tells an untruth.


def check_untold():
    """A request that is booked, and whose outcome nobody was told, as the older copy is damaged."""
    folder, book = booked(open_book(), Book(), "capacity 3 1000", "charge 3 100")
    with open("/dev/full", "w", encoding="utf-8") as full:
        done = plainly(folder, ["charge", "3", "200"], stdout=full)
    expect(done.returncode == FAILED, "an outcome that could not be said does not end with a failure")
    book = book.given(*asked_by(["charge", "3", "200"]), 0)
    for file in (folder / "book").glob("book.?"):
        if file.read_bytes() != book.record((folder / "book" / "page").read_bytes()[32:]):
            file.write_bytes(b"\0" + file.read_bytes()[1:])
    expect(status_of(folder) == book.told(), "status does not say that a booked request is booked")
    return 1


def check_cut_note():
    """A note that is cut short is no sign that no request was given."""
    folder, _ = two_racks()
    note = folder / "book" / "request"
    note.write_bytes(note.read_bytes()[: note.stat().st_size // 2])
    status = run(folder, ["status"])
    expect(status.exit == UNTOLD and "its note is damaged" in status.said, f"status says {status.said}")
    return 1


def check_lost_page():
    """No page is made where there are records, or a note."""
    for kept in ["book.a"], ["book.b"], ["request"], ["book.a", "book.b", "request"]:
        folder, _ = two_racks()
        for file in (folder / "book").iterdir():
            if file.name not in kept:
                file.unlink()
        was = content(folder)
        expect(run(folder, ["open"]).exit == NO_RECORD, f"a page is made where {kept} is")
        expect(content(folder) == was, f"open without a page changes a file where {kept} is")
    return 4


def check_cleared_page():
    """A page of zeros, or one whose summary is cleared, is not taken for a fresh one where something was booked. (With
    the first record still there, a cleared summary is a page set back.)"""
    one, four = booked(open_book(), Book(), "capacity 3 1000"), two_racks()
    unheard = answer_lost(open_book(), Book(), "capacity 3 1000")
    for (before, _), cleared in (one, 64), (unheard, 64), (unheard, 40), (four, 64), (four, 32):
        folder = copy(before)
        page = folder / "book" / "page"
        page.write_bytes(bytes(cleared) + page.read_bytes()[cleared:])
        status = run(folder, ["status"])
        expect(status.exit == NO_RECORD and "site open" not in status.said, f"status says {status.said}")
        was = content(folder)
        expect(run(folder, ["open"]).exit == NO_RECORD, f"a page with {cleared} bytes cleared is opened")
        expect(content(folder) == was, "open has changed a file")
    alone = new_folder()
    (alone / "book" / "page").write_bytes(bytes(64))
    expect(run(alone, ["open"]).exit == NO_RECORD, "a page whose key nobody has made is opened")
    return 11


def check_open_again():
    """Open on a fresh page completes what is missing, and leaves the note of a request that was given on it."""
    for damage in lambda file: file.unlink(), lambda file: file.write_bytes(bytes(451)):
        folder, book = pending(open_book(), Book(), "capacity 3 72000")
        damage(folder / "book" / "book.a")
        expect("site open" in run(folder, ["status"]).said, "status does not say that open gives the first record")
        expect(run(folder, ["open"]).exit == 0, "a fresh page is not opened again")
        expect(status_of(folder) == book.told(), "open has changed what status says of a request")
        check_stored(folder, book)
    return 4


# ---- Settling.


def check_settling():
    """What can't be told is settled by a number that is not too low, and the count goes on behind that."""
    folder, _ = older_record_lost(*two_racks(), "charge 5 600")
    was = content(folder)
    for number in 0, 3, 4:
        expect(run(folder, ["settle", str(number)]).exit == OTHER_NUMBER, f"{number} is settled where 5 are booked")
    expect(content(folder) == was, "what is not settled has changed a file")
    for number in 7, 5:
        expect(run(folder, ["settle", str(number)]).exit == 0, f"{number} can't be settled, or not anew")
        expect(run(folder, ["settle", "4"]).exit == OTHER_NUMBER, "settled anew it may be too low")
        status = run(folder, ["status"])
        expect(status.exit == 0 and told_by(status.said) is None, "what is settled is told as if it were known")
        expect(settled_by(status.said) == number, f"status says {status.said}")
    expect(says_booked(run(folder, ["-n", "6", "charge", "5", "1"]).said), "the count does not go on")
    for number, end in ("6", 0), ("5", OTHER_NUMBER), ("7", OTHER_NUMBER):
        expect(run(folder, ["settle", number]).exit == end, f"{number} is settled where 6 is told")
    expect(says_booked(run(folder, ["-n", "7", "charge", "5", "1"]).said), "settle has changed what is told")
    return 14


def check_older_note():
    """A note from before the page moved is noticed and can't be settled as it stands: a line with -n is booked once."""
    folder, book = two_racks()
    older = (folder / "book" / "request").read_bytes()
    words = ["-n", str(book.count + 1), "charge", "5", "600"]
    expect(run(folder, words).exit == 0, "a request is refused")
    (folder / "book" / "request").write_bytes(older)
    for line, end in (words, UNTOLD), (["settle", str(book.count)], OTHER_NUMBER), (words, UNTOLD):
        expect(run(folder, line).exit == end, f"'{' '.join(line)}' does not end with {end}")
    expect(run(folder, ["settle", str(book.count + 1)]).exit == 0, "the true number can't be settled")
    expect(run(folder, words).exit == OTHER_NUMBER, "a line with -n is booked twice")
    return 6


# ---- Streams, file systems, and files that are none.


def check_streams():
    """A standard stream that is closed takes nothing, and no file takes what was to be said."""
    closings = "0>&-", "1>&-", "2>&-", "0>&- 1>&-", "1>&- 2>&-", "0>&- 2>&-", "0>&- 1>&- 2>&-"
    for closing in closings:
        for line in "status", "charge 5 600", "charge 3 2001", "fly":
            folder, _ = two_racks()
            other = copy(folder)
            expected = plainly(other, line.split(), capture_output=True).returncode
            words = ["/bin/sh", "-c", f'"$0" "$@" {closing}', setting.site, *line.split()]
            done = subprocess.run(words, cwd=folder / "book", capture_output=True, timeout=60)
            wanted = FAILED if "1>&-" in closing and line != "fly" else expected
            expect(done.returncode == wanted, f"'{line}' ends with {done.returncode} after {closing}")
            expect(content(folder) == content(other), f"'{line}' leaves other files after {closing}")
    return 4 * len(closings) + check_failure_unsaid()


def check_failure_unsaid():
    """With all streams closed, a file that can't be written does not take the message about it."""
    folder, _ = two_racks()
    operations = run(copy(folder), ["charge", "5", "600"]).operations
    for at in (i + 1 for i, operation in enumerate(operations) if " write " in operation):
        other = copy(folder)
        done = run(other, ["charge", "5", "600"], at, "fail", "0>&- 1>&- 2>&-")
        expect(done.exit == FAILED, f"exit status {done.exit} where a file could not be written")
        written = b"".join(file.read_bytes() for file in (other / "book").iterdir())
        expect(b"site:" not in written, f"a message is in a file: {operations[at - 1]}")
    return 4


def check_read_only():
    """View and status on a file system that can't be written, with an answer to recover; and a request there."""
    folder, book = answer_lost(*two_racks(), "charge 5 600")
    was = content(folder)
    for line, end in ("view", 0), ("view 5", 0), ("status", 0), ("charge 5 1", FAILED):
        done = run(folder, line.split(), way="readonly")
        expect(done.exit == end, f"'{line}' ends with {done.exit} where nothing can be written: {done.said}")
    expect(content(folder) == was, "a file is changed where nothing can be written")
    check_view(folder, book)
    return 4


def check_odd_files():
    """A pipe or a directory in place of a file is an error that is said, and nobody waits for it."""
    made = {"pipe": os.mkfifo, "directory": os.mkdir, "link to nowhere": lambda path: path.symlink_to("nowhere/at/all")}
    count = 0
    for name in "page", "book.a", "book.b", "request", "page.new", "request.new":
        for words in ["link to nowhere"] if name.endswith(".new") else ["pipe", "directory"]:
            for line in ["charge 5 1"] if name.endswith(".new") else ["status", "view", "charge 5 1", "open"]:
                folder, _ = two_racks()
                path = folder / "book" / name
                path.unlink(missing_ok=True)
                made[words](path)
                done = plainly(folder, line.split(), capture_output=True)
                expect(done.returncode == FAILED, f"'{line}' takes a {words} for {name}")
                expect(done.stderr, f"'{line}' does not say that there is a {words} for {name}")
                count += 1
    return count


def check_locking():
    """A program waits while another is at work in the directory, which is this one here, and says so; readers don't
    wait for each other, and wait on a file system that can't be written too."""
    folder = open_book()
    run(folder, ["capacity", "3", "1000"])
    directory = os.open(folder / "book", os.O_RDONLY)
    for line in ["charge", "3", "1"], ["status"]:
        fcntl.flock(directory, fcntl.LOCK_EX)
        streams = {"stdout": subprocess.PIPE, "stderr": subprocess.PIPE}
        waiting = subprocess.Popen([setting.site, *line], cwd=folder / "book", text=True, **streams)
        time.sleep(0.3)
        expect(waiting.poll() is None, "a program does not wait for another that is at work")
        fcntl.flock(directory, fcntl.LOCK_UN)
        said, told = waiting.communicate(timeout=60)
        expect("waiting" in told, "a program that waits does not say so")
        expect(waiting.returncode == 0 and "(charge rack 3 by 1) is booked" in said, f"it says {said}")
    fcntl.flock(directory, fcntl.LOCK_SH)
    expect(run(folder, ["view"]).exit == 0, "a reader waits for another")
    os.close(directory)
    expect(table_of(run(folder, ["view"]).said)[1] == 1, "a program that has waited has lost its request")
    return 5


def check_unseen():
    words = ["nm", "-D", "--undefined-only", setting.site]
    listed = subprocess.run(words, capture_output=True, text=True, check=True).stdout
    used = {line.split()[-1].split("@")[0] for line in listed.splitlines()}
    expect("rename" in used, "what the site program imports cannot be read")
    expect(not used & set(UNSEEN), f"the site program changes files past the shim: {sorted(used & set(UNSEEN))}")
    return 0


def check_plain():
    checks = (check_unseen, check_untold, check_cut_note, check_lost_page, check_cleared_page, check_open_again,
              check_settling, check_older_note, check_not_understood, check_refused, check_nothing_there, check_streams,
              check_read_only, check_odd_files, check_locking)
    yield f"{sum(check() for check in checks)} commands without a cut end as they should"
