#!/usr/bin/env python3
"""Bends what the histories say that a call did, and tells which law notices.

bends.py [WORD]   every bend, or those whose name contains WORD

The premises and the theorems read `did` (crates/histories/specs/Did.antt) and the folds over a run (Runs.antt). No theorem can hold
these to the truth, so each right side is bent here, one at a time, in a copy of the repository: a clause becomes each of its kin, a
list of a record becomes empty, or gets an entry. A bend that no law notices is a hole in the witness. docs/HISTORY.md has the result.
"""
import os
import re
import shutil
import subprocess
import sys
import tempfile

ROOT = os.path.dirname(os.path.dirname(os.path.abspath(__file__)))
SPECS = "crates/histories/specs/"
KIN = ["nothing page", "tries D page l", "finds D page l", "relies D page l", "takes D page l"]
FIELDS = ["hashed", "found", "taken", "answered", "moved", "needed", "relied"]
ENTRY = {"nothing": "page", "hashes": "page", "answers": "state"}


def clauses(text):
    """Each clause of the calls with each of its kin, and with either half where it is one thing and then another."""
    for m in re.finditer(r"^((?:open|perform|repeat|look)_did D page .*?) = (.*)$", text, re.M):
        head, right = m[1], m[2]
        others = [k for k in KIN if k != right and not (head.startswith("open_did") and " l" in k)]
        halves = re.match(r"both \((\w+ D page l)\) \((.*)\)$", right)
        others += [halves[1], halves[2]] if halves else []
        for other in dict.fromkeys(others):
            if other != right:
                yield f"{head} = {other}", m.start(2), m.end(2), other
    for m in re.finditer(r"^(resume_did \S.*? ram disk) = (.*)$", text, re.M):
        for other in ("ram", "disk", "both ram disk"):
            if other != m[2]:
                yield f"{m[1]} = {other}", m.start(2), m.end(2), other


def fields(text):
    """Each list of each record: emptied, or given an entry."""
    for m in re.finditer(r"^(nothing|hashes|finds|relies|takes|answers|both) [^\n]*? =\s((?:.*\n)*?)(?=\n|\Z)", text, re.M):
        for field in FIELDS:
            f = re.search(rf"\b{field} = (.*?)(?=;| }})", m[2])
            entry = ENTRY.get(m[1], "l")
            other = f"{entry} ∷ []" if f[1] == "[]" else "[]"
            if m[1] == "both":
                other = f"a.{field}"
            at = m.start(2) + f.start(1)
            yield f"{m[1]}: {field} = {other}", at, at + len(f[1]), other


def folds(text):
    """The steps: what each kind of cut leaves, moves and has called, and what counts as answered."""
    for m in re.finditer(r"^((?:page_after_step|moved_by) D page \((\w+) c\)) = (.*)$", text, re.M):
        name = ".page" if m[1].startswith("page") else ".moved"
        idle = "page" if m[1].startswith("page") else "[]"
        other = idle if name in m[3] else f"(did D page c){name}"
        yield f"{m[1]} = {other}", m.start(3), m.end(3), other
    for m in re.finditer(r"^(call_of \(\w+ c\)) = (c)$", text, re.M):
        yield f"{m[1]} = views [] 0", m.start(2), m.end(2), "Call.views [] 0"
    for effect in FIELDS:
        m = re.search(r"in_run \(λ d\. d\.answered\)", text)
        if effect != "answered":
            yield f"answered_before: {effect}", m.start(), m.end(), f"in_run (λ d. d.{effect})"


def main():
    wanted = sys.argv[1] if len(sys.argv) > 1 else ""
    unnoticed = tried = 0
    with tempfile.TemporaryDirectory() as scratch:
        copy = os.path.join(scratch, "keeper")
        histories = os.path.join(copy, "crates", "histories")
        shutil.copytree(ROOT, copy, ignore=shutil.ignore_patterns(".git", "target", "out"))
        for leaf, bends in (("Did.antt", clauses), ("Did.antt", fields), ("Runs.antt", folds)):
            path = os.path.join(copy, SPECS, leaf)
            with open(path, encoding="utf-8") as file:
                text = file.read()
            for name, start, end, other in bends(text):
                if wanted not in name:
                    continue
                with open(path, "w", encoding="utf-8") as file:
                    file.write(text[:start] + other + text[end:])
                run = subprocess.run(["rt", "check"], cwd=histories, capture_output=True, text=True, check=False)
                laws = re.findall(r"(?:error: |antt:[0-9:]+ )`([\w-]+)`", run.stdout + run.stderr)
                steps = [law for law in laws if re.fullmatch(r"step_\d+|barred_repeat|cuts_count|requests_are", law)]
                tried += 1
                unnoticed += not laws
                said = f"{laws[0]}; witness: {', '.join(steps) or 'none'}" if laws else "UNNOTICED"
                print(f"{name:75.75}  {said}", flush=True)
            with open(path, "w", encoding="utf-8") as file:
                file.write(text)
    print(f"{tried} bends, {unnoticed} unnoticed")
    sys.exit(bool(unnoticed))


main()
