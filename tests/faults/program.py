"""Runs the site program under the shim, and reads what it says and what it has stored."""

import dataclasses
import pathlib
import re
import shutil
import struct
import subprocess
import tempfile

USAGE, FAILED, NO_RECORD, UNTOLD, OTHER_NUMBER, KILLED = 64, 74, 75, 76, 77, -9

# Seconds for a run, which takes a few thousandths of one.
LONGEST = 20

# At its own end a program is cut so that all is lost that it had not brought to the disk.
AT_ITS_END = -1


class Failure(Exception):
    pass


def expect(holds, sentence):
    if not holds:
        raise Failure(sentence)


@dataclasses.dataclass
class Setting:
    """The program, the shim, a directory for all folders, and how many runs and restarts there were."""

    site: str = ""
    shim: str = ""
    top: str = ""
    runs: int = 0
    restarts: int = 0


setting = Setting()


# ---- Folders: each has the book's directory and a room for the shim.


def new_folder():
    folder = pathlib.Path(tempfile.mkdtemp(dir=setting.top))
    (folder / "book").mkdir()
    (folder / "room").mkdir()
    return folder


def copy(folder):
    other = new_folder()
    shutil.copytree(folder, other, dirs_exist_ok=True)
    return other


def names_held(folder):
    """How many names are given that the disk does not have yet: the last number of what the shim hands on."""
    held = folder / "room" / "held"
    return struct.unpack("i", held.read_bytes()[-4:])[0] if held.exists() else 0


def content(folder):
    """What a restart reads, and how many of the names are not on the disk yet."""
    files = sorted(file for file in (folder / "book").iterdir() if file.suffix != ".new")
    return tuple((file.name, file.read_bytes()) for file in files), names_held(folder)


# ---- Running.


@dataclasses.dataclass
class Run:
    exit: int
    said: str
    operations: list


def run(folder, words, at=0, way="", closing=""):
    """Runs the program, with a cut or a fault at an operation, and with streams closed as a shell would close them."""
    setting.runs += 1
    log = folder / "room" / "log"
    log.unlink(missing_ok=True)
    env = {"LD_PRELOAD": setting.shim, "FAULTS_LOG": "../room/log", "FAULTS_ROOM": "../room"}
    env.update(FAULTS_AT=str(at), FAULTS_WAY=way)
    call = ["/bin/sh", "-c", f'exec "$0" "$@" {closing}', setting.site, *words] if closing else [setting.site, *words]
    try:
        done = subprocess.run(call, cwd=folder / "book", env=env, capture_output=True, text=True, timeout=LONGEST)
    except subprocess.TimeoutExpired:
        raise Failure(f"{' '.join(words)}: no end after {LONGEST} seconds") from None
    lines = log.read_text().splitlines() if log.exists() else []
    broken = [line for line in lines if line.startswith("broken")]
    expect(not broken, f"{' '.join(words)}: {broken}")
    return Run(done.returncode, done.stdout, lines)


# ---- What the program says.


def told_by(said):
    """What status says of the last request: its number, whether it is booked, and what it asks. None if it says that it
    can't be told, or says nothing."""
    found = re.search(r"^request  (\d+) \((.*)\) is (not )?booked(: it was refused with \d+)?$", said, re.M)
    if found:
        return int(found[1]), not found[3], found[2]
    return (0, False, "") if re.search("^request  none was given since the book was last opened$", said, re.M) else None


def says_none_booked(said):
    """Whether status says that nothing is booked, of a book whose note is lost or damaged."""
    return re.search("^request  none is booked; the note of what was given is (lost|damaged)$", said, re.M) is not None


def settled_by(said):
    """The number that status says was settled, or None."""
    found = re.search(r"^request  (\d+) is the last one booked; so it was settled$", said, re.M)
    return int(found[1]) if found else None


def status_of(folder):
    """What status says of the last request; the cut at its end takes nothing of it back."""
    setting.restarts += 1
    done = run(folder, ["status"], AT_ITS_END)
    expect(done.exit == 0, f"status ends with {done.exit}: {done.said}")
    told = told_by(done.said)
    expect(told, f"status does not tell the last request: {done.said}")
    return told


def says_booked(said):
    return re.search(r"^Request \d+ \(.*\) is booked\.$", said, re.M) is not None


def number(text):
    return int(text.replace(",", ""))


def table_of(said):
    row = r"^ *(\d+) +([\d,]+) +([\d,]+) +(\d+) % \[[#.]{20}\] +([\d,]+) +([\d,]+)$"
    total = re.search(r"^total +([\d,]+)$", said, re.M)
    return [tuple(map(number, found)) for found in re.findall(row, said, re.M)], total and number(total[1])


# ---- What it has stored.


def page_of(folder):
    """The page's summary and its key."""
    page = (folder / "book" / "page").read_bytes()
    return page[:32], page[32:]


def check_stored(folder, book):
    """The page, and the one current record among the two, to the byte."""
    summary, key = page_of(folder)
    expect(summary == book.summary, "the page is not the book's")
    records = [file.read_bytes() for file in (folder / "book").glob("book.?")]
    expect(records.count(book.record(key)) == 1, "the book's record is not there, or not once")


def check_view(folder, book):
    """The table that view shows."""
    view = run(folder, ["view"])
    expect(view.exit == 0, f"view ends with {view.exit}: {view.said}")
    expect(table_of(view.said) == book.table(), f"view shows {view.said}")
