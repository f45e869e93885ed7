#!/usr/bin/env python3
"""Bends a source: a file of bends/ says in which file which line becomes which other one. Its line `part:` is for run.

    tests/faults/bend.py BEND ROOT    ROOT has the sources that are bent
"""

import pathlib
import sys

bend, root = pathlib.Path(sys.argv[1]), pathlib.Path(sys.argv[2])
file = old = None
for line in bend.read_text().splitlines():
    if line.startswith("file: "):
        file = root / line[6:]
    elif line.startswith("old: "):
        old = line[5:]
    elif line.startswith("new: "):
        text = file.read_text()
        lines = text.splitlines()
        if lines.count(old) != 1:
            sys.exit(f"{bend.name}: the line to bend is there {lines.count(old)} times: {old}")
        lines[lines.index(old)] = line[5:]
        file.write_text("\n".join(lines) + "\n")
