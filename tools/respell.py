#!/usr/bin/env python3
"""Respells the repository's own definitions and lemmas: words in snake case, a dash only between two names.

    python3 tools/respell.py          once, behind the kit's own script, at the top of the repository
    python3 tools/respell.py --table  prints each old name and its new one, and changes nothing

A word that was spelled like `stateSize` becomes `state_size`, wherever it stands in a specification, a proof, a clause or
an edit. A lemma's name keeps a dash where it joins the names of two functions, as `length-carry_out`, and else has a low
line, as `good_at`. Types, modules, facts (which begin with a capital), goals, and all that Rust sees keep their spelling.
Pages are respelled between backticks alone.
"""
import pathlib
import re
import sys

ROOT = pathlib.Path(__file__).resolve().parent.parent
CRATES = ROOT / "crates"
# A name ends at a space, a bracket, a comma, a semicolon or a dot.
TOKEN = re.compile(r"[^\s(){}\[\],;.@«»`\"]+")
HUMP = re.compile(r"(?<=[a-z0-9])(?=[A-Z])")
# Functions of the library that lemmas are named after.
LIBRARY = set("length take drop append replicate set map zero suc add sub mul div mod pow xor or and le lt eq nil cons get_or".split())
# Functions whose names are plain words in the lemmas' names.
ENGLISH = set("""perform repeat view open resume is stays told accepted messages run state summary page record takes onto by kept
    key step among answer answers left right held current authenticator output none read booked moved needed relied found taken
    wrote good size form first second number walked cuts asked request""".split())
DEFINES = re.compile(r"^\s*(?:abbrev |unfoldable |pub |data |record |ruleset )*([^\s(){}\[\],;.:]+) :(?=\s|$)", re.M)


def lemma_files():
    return [f for f in CRATES.glob("*/specs/**/*.antt")] + [f for f in CRATES.glob("*/proofs/*.antt")]


def proof_files():
    return [f for f in CRATES.glob("*/proofs/**/*.antt") if f.parent.name != "proofs"]


def humps(name):
    """`stateSize` as `state_size`, and a name with a capital at its front as it was."""
    def part(piece):
        if not re.match(r"[a-z]", piece) or not HUMP.search(piece):
            return piece
        return HUMP.sub("_", piece).lower() if piece.isascii() else piece
    return "-".join(part(p) for p in name.split("-"))


def words():
    """The functions whose names may stand on either side of a dash: this repository's definitions, and the library's."""
    named = set(LIBRARY)
    for f in CRATES.glob("*/specs/**/*.antt"):
        for name in DEFINES.findall(f.read_text("utf-8")):
            if "-" not in name:
                named.add(humps(name))
    return named - ENGLISH


def dashes(name, named):
    """A dash stands as long as all in front of it, and what is behind it, are names."""
    pieces = name.split("-")
    out, joins = pieces[0], pieces[0] in named
    for piece in pieces[1:]:
        joins = joins and piece in named
        out += ("-" if joins else "_") + piece
    return out


def table():
    named = words()
    new = {}
    for f in lemma_files():
        for name in DEFINES.findall(f.read_text("utf-8")):
            if re.search(r"[A-Za-z]", name) and not name.startswith("◌") and "-" in name:
                new[name] = dashes(humps(name), named)
    for f in lemma_files() + proof_files():
        for token in TOKEN.findall(strip(f.read_text("utf-8"))):
            if HUMP.search(token) and re.match(r"[a-z]", token) and token not in new and humps(token) != token:
                new[token] = humps(token)
    # A lemma that would have its function's name gets `_lem`.
    functions = {humps(n) for f in lemma_files() for n in DEFINES.findall(f.read_text("utf-8")) if "-" not in n}
    new = {old: name + "_lem" if "-" in old and name in functions else name for old, name in new.items()}
    # So does one that has that name already.
    given = [n for f in lemma_files() for n in DEFINES.findall(f.read_text("utf-8"))]
    new.update({n: n + "_lem" for n in given if n in new.values() and n not in new})
    return {old: name for old, name in new.items() if old != name}


def strip(text):
    return re.sub(r"--.*", "", text)


def apply(text, new):
    return TOKEN.sub(lambda m: new.get(m.group(0), m.group(0)), text)


def main():
    new = table()
    taken = {}
    for old, name in new.items():
        taken.setdefault(name, []).append(old)
    everything = "\n".join(f.read_text("utf-8") for f in lemma_files() + proof_files())
    tokens = set(TOKEN.findall(everything))
    for name, olds in sorted(taken.items()):
        if len(olds) > 1 or name in tokens:
            print(f"falls together: {name} <- {', '.join(olds)}{' and what has that name' if name in tokens else ''}", file=sys.stderr)
    if "--table" in sys.argv:
        for old, name in sorted(new.items()):
            print(f"{old} {name}")
        return
    for f in lemma_files() + proof_files() + list(CRATES.glob("*/src/**/*.rt")) + list(CRATES.glob("*/must-fail/*.edit")):
        text = f.read_text("utf-8")
        changed = apply(text, new)
        if changed != text:
            f.write_text(changed, "utf-8")
    for page in [*ROOT.glob("*.md"), *ROOT.glob("docs/*.md")]:
        if page.name.startswith("PORT"):
            continue
        text = page.read_text("utf-8")
        changed = re.sub(r"`[^`\n]+`", lambda m: apply(m.group(0), new), text)
        if changed != text:
            page.write_text(changed, "utf-8")


main()
