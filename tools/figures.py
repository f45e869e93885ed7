#!/usr/bin/env python3
"""The figures of docs/FIGURES.md that a machine can count.

figures.py            lines of definitions, code and proofs, and must-fail edits, of each crate
figures.py --checks   proves each crate from nothing, one after the other: seconds, and the peak of memory

Blank lines, comments and imports do not count. A crate's time is that of its part of `rt all verdict --jobs 1`, which
takes nothing from earlier checks, when the crates that it depends on are proved already; the memory is the largest of
any process of that part.
"""
import glob
import os
import re
import shutil
import subprocess
import sys
import tempfile
import threading
import time

ROOT = os.path.dirname(os.path.dirname(os.path.abspath(__file__)))


def crates():
    """The names in crates.txt, each behind those that it depends on."""
    order = []
    with open(os.path.join(ROOT, "crates.txt"), encoding="utf-8") as lines:
        needs = dict(re.findall(r"^(\w+)(?: staticlib)?:(.*)$", lines.read(), re.M))

    def visit(name):
        if name in needs and name not in order:
            for other in needs[name].split():
                visit(other)
            order.append(name)

    for name in needs:
        visit(name)
    return order


def count(folder, end):
    """The lines that say something, of all files below the folder with this ending."""
    total = 0
    for at, _, leaves in os.walk(os.path.join(ROOT, "crates", folder)):
        for leaf in leaves:
            if leaf.endswith(end):
                with open(os.path.join(at, leaf), encoding="utf-8") as lines:
                    for line in lines:
                        text = line.strip()
                        total += bool(text) and not text.startswith(("--", "//", "use ", "ghost use "))
    return total


def sizes():
    rows = []
    for name in crates():
        edits = len([f for f in os.listdir(os.path.join(ROOT, "crates", name, "must-fail")) if f.endswith(".edit")]) if os.path.isdir(
            os.path.join(ROOT, "crates", name, "must-fail")) else 0
        rows.append((name, count(name + "/specs", ".antt"), count(name + "/src", ".rt"), count(name + "/proofs", ".antt"), edits))
    rows.append(("in all", *(sum(r[i] for r in rows) for i in range(1, 5))))
    print("| crate | definitions | code | proofs | edits |")
    print("|---|---|---|---|---|")
    for row in rows:
        print("| " + " | ".join(str(x) for x in row) + " |")


def below(first):
    """The processes that a process has started, and they in turn."""
    parents = {}
    for status in glob.glob("/proc/[0-9]*/status"):
        try:
            with open(status, encoding="utf-8") as lines:
                said = dict(line.split(":", 1) for line in lines if ":" in line)
        except OSError:
            continue  # it has ended
        parents[int(said["Pid"])] = int(said["PPid"]), int(said.get("VmHWM", "0 kB").split()[0])
    found = {first}
    while more := {pid for pid, (parent, _) in parents.items() if parent in found} - found:
        found |= more
    return {pid: parents[pid][1] for pid in found if pid in parents}


def checks():
    """A copy of the crates is proved in one run of rt, which writes what it says of a crate when it is done with it."""
    print("| crate | seconds | MB |")
    print("|---|---|---|")
    with tempfile.TemporaryDirectory() as room:
        shutil.copy(os.path.join(ROOT, "crates.txt"), room)
        shutil.copytree(os.path.join(ROOT, "crates"), os.path.join(room, "crates"), ignore=shutil.ignore_patterns("out"))
        whole = began = time.time()
        most = {}
        with subprocess.Popen(["rt", "all", "verdict", "--jobs", "1"], cwd=room, stdout=subprocess.PIPE,
                              stderr=subprocess.STDOUT, text=True) as run:
            ended = threading.Event()

            def watch():
                while not ended.wait(0.1):
                    for pid, peak in below(run.pid).items():
                        most[pid] = max(most.get(pid, 0), peak)

            watcher = threading.Thread(target=watch)
            watcher.start()
            for line in run.stdout:
                name = line.removeprefix("== ").strip()
                if line.startswith("== ") and name != "summary":
                    own = [peak for pid, peak in list(most.items()) if pid != run.pid]
                    print(f"| {name} | {time.time() - began:.0f} | {max(own, default=0) // 1024} |", flush=True)
                    began = time.time()
                    most.clear()
                last = line
            ended.set()
            watcher.join()
        if run.returncode != 0:
            sys.exit(f"figures: a crate is not proved: {last}")
    print(f"| in all | {time.time() - whole:.0f} | |")


if sys.argv[1:] == ["--checks"]:
    checks()
elif not sys.argv[1:]:
    sizes()
else:
    sys.exit(__doc__)
