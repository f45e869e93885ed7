#!/usr/bin/env python3
"""Holds what host/keeper.h says that the archive needs to the archive itself.

    tests/archive/archive.py [LIBRARY]    LIBRARY is target/staticlib/libkeeper.a unless it is given

It needs memset and nothing else, no instruction beyond SSE2, no data that is written, and the bytes of stack that the
header says. Then each of these is bent, and the test has to notice.
"""

import pathlib
import re
import subprocess
import sys
import tempfile

ROOT = pathlib.Path(__file__).resolve().parents[2]

# Families of instructions that came to x86-64 after SSE2, by how their names begin.
LATER = re.compile(r"v[a-z]|sha(1|256)|aes|pclmul|crc32|popcnt|lzcnt|tzcnt|andn|bextr|bls|bzhi|mulx|rorx|sarx|shlx|shrx"
                   r"|pdep|pext\b|movbe|adcx|adox|rdrand|rdseed|pshufb|palignr|pabs|phadd|phsub|pmadd(ubs)|pmulhrs"
                   r"|psign|pblend|blend|pinsr[bdq]|pextr[bdq]|pmulld|pmuldq|ptest|pmovsx|pmovzx|pcmpgtq|pcmpeqq"
                   r"|packusdw|round|dpp|insertps|extractps|mpsadbw|pcmp[ei]str|lddqu|movddup|movs[hl]dup|hadd|hsub"
                   r"|addsub|monitor|mwait|cmpxchg16b|f[a-z]*(add|mul|div|ld|st)")

# The figures view's five functions share one.
STACK = {"keeper_open": r"keeper_open (\d+)", "keeper_perform": r"keeper_perform (\d+)",
         "keeper_repeat": r"keeper_repeat (\d+)", "keeper_view": r"keeper_view and each of its figures (\d+)",
         "keeper_resume": r"keeper_resume (\d+)"}


def output(*words):
    return subprocess.run([str(word) for word in words], check=True, capture_output=True, text=True).stdout


def undefined(library):
    return sorted(line.split()[-1] for line in output("nm", "-u", library).splitlines() if " U " in line)


def instructions(library):
    listed = output("objdump", "-d", "--no-show-raw-insn", library)
    return sorted(set(re.findall(r"^ +[0-9a-f]+:\t(?:data16 |cs )*([a-z][a-z0-9]*)", listed, re.M)))


def written(library):
    """Sections that are written and have bytes, by name."""
    rows = re.findall(r"^ +\[ *\d+\] (\S+) +\w+ +[0-9a-f]+ [0-9a-f]+ ([0-9a-f]+) [0-9a-f]+ +(\w*)",
                      output("readelf", "-S", "-W", library), re.M)
    return sorted(name for name, size, flags in rows if "W" in flags and int(size, 16) > 0)


def stack(library):
    with tempfile.TemporaryDirectory() as room:
        program = pathlib.Path(room) / "stack"
        flags = ["-std=gnu99", "-O2", "-Wall", "-Wextra", "-Werror", "-Wl,-z,now", "-I", ROOT / "host"]
        subprocess.run(["gcc", *flags, "-o", program, ROOT / "tests" / "archive" / "stack.c", library], check=True)
        return {name: int(bytes_) for name, bytes_ in (line.split() for line in output(program).splitlines())}


def seen(library):
    return {"undefined": undefined(library), "instructions": instructions(library), "written": written(library),
            "stack": stack(library)}


def wrong(header, found):
    """The first sentence of the header that is not so, or None."""
    if found["undefined"] != ["memset"]:
        return f"it needs {found['undefined']}, and not memset alone"
    later = [name for name in found["instructions"] if LATER.match(name)]
    if later or "movdqu" not in found["instructions"]:
        return f"its instructions are not those of SSE2: {later}"
    if found["written"]:
        return f"it has data that is written: {found['written']}"
    for name, taken in found["stack"].items():
        said = re.search(STACK["keeper_view" if "view" in name else name], header)
        if not said or int(said[1]) != taken:
            return f"{name} takes {taken} bytes of stack, and the header says {said and said[1]}"
    return None


def bends(header, found):
    """Another header or another archive, with words for it."""
    for name, pattern in STACK.items():
        at = re.search(pattern, header).span(1)
        yield f"the stack of {name}", header[: at[0]] + str(int(header[slice(*at)]) - 1) + header[at[1]:], found
    more = {"undefined": ["memcpy"], "instructions": ["vpaddd", "sha256rnds2"], "written": [".data"]}
    for key, name in ((key, name) for key, names in more.items() for name in names):
        yield f"{key} with {name}", header, {**found, key: sorted([*found[key], name])}


def main():
    library = pathlib.Path(sys.argv[1]) if len(sys.argv) > 1 else ROOT / "target" / "staticlib" / "libkeeper.a"
    if not library.is_file():
        sys.exit(f"archive: {library} is missing; tools/archive keeper builds the proved one")
    subprocess.run([ROOT / "tools" / "need", "gcc", "libc6-dev", "binutils"], check=True)
    header, found = (ROOT / "host" / "keeper.h").read_text(), seen(library)
    sentence = wrong(header, found)
    if sentence:
        sys.exit(f"archive: FAILED: {sentence}")
    kinds = len(found["instructions"])
    print(f"archive: it needs memset alone, {kinds} kinds of instruction within SSE2, and no data that is written")
    print("archive: stack as the header says, " + ", ".join(f"{name} {n}" for name, n in found["stack"].items()))
    count = 0
    for words, other_header, other in bends(header, found):
        if not wrong(other_header, other):
            sys.exit(f"archive: FAILED: {words} is bent and not noticed")
        count += 1
    print(f"archive: {count} bent sentences, each noticed")


if __name__ == "__main__":
    main()
