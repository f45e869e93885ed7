#!/usr/bin/env python3
"""Draws docs/chain.svg: the chain of summaries, the page that holds the newest one, the records, and where each fails.

    tools/picture.py            writes docs/chain.svg
    tools/picture.py --check    writes nothing, and fails where the file is not what would be written
"""

import pathlib
import sys
from xml.sax.saxutils import escape

PICTURE = pathlib.Path(__file__).resolve().parent.parent / "docs" / "chain.svg"
WIDTH, HEIGHT = 800, 540

# Ink, and the fills and edges of what is drawn.
INK, SOFT, LINE = "#1b1f24", "#57606a", "#57606a"
PAPER, ZONE, WHITE = "#ffffff", "#f1f3f5", "#ffffff"
BLUE, BLUE_EDGE = "#dbe9fb", "#2f5f9e"
GREEN, GREEN_EDGE = "#dcf2e0", "#1f7a3a"
RED, RED_EDGE = "#fbe3e1", "#b3261e"
HEADS = {LINE: "head", GREEN_EDGE: "green-head"}  # of arrows

# Five columns of records; the first four have a summary of the chain above them.
COLUMN, GAP, LEFT = 140, 15, 20
MIDDLE = [LEFT + COLUMN // 2 + i * (COLUMN + GAP) for i in range(5)]
NEWEST, CHANGED = 3, 4

# The rows, from the top.
PAGE, REQUESTS, CHAIN, RECORDS, VERDICTS = 62, 126, 172, 282, 414
ROW = 30  # of a record


def text(x, y, words, size=13, fill=INK, anchor="middle", weight="normal"):
    return (
        f'<text x="{x}" y="{y}" font-size="{size}" fill="{fill}" text-anchor="{anchor}" font-weight="{weight}">'
        f"{escape(words)}</text>"
    )


def lines(x, y, rows, **more):
    """Rows of text under each other."""
    return [text(x, y + 17 * i, row, **more) for i, row in enumerate(rows)]


def box(x, y, width, height, fill, edge, radius=4, thick=1.2):
    return (
        f'<rect x="{x}" y="{y}" width="{width}" height="{height}" rx="{radius}" fill="{fill}" stroke="{edge}"'
        f' stroke-width="{thick}"/>'
    )


def arrow(x1, y1, x2, y2, color=LINE):
    """A straight line, with a head behind its end."""
    return (
        f'<line x1="{x1}" y1="{y1}" x2="{x2}" y2="{y2}" stroke="{color}" stroke-width="1.5"'
        f' marker-end="url(#{HEADS[color]})"/>'
    )


def page():
    """The page, its summary above the newest one of the chain."""
    left, width = MIDDLE[NEWEST] - COLUMN // 2, COLUMN + GAP // 2
    yield text(left, PAGE - 28, "The page: 64 bytes of the controller's", anchor="start", weight="bold")
    yield text(left, PAGE - 11, "own protected memory", anchor="start", weight="bold")
    yield box(left, PAGE, width, 34, GREEN, GREEN_EDGE)
    yield box(left + width, PAGE, width, 34, WHITE, LINE)
    yield text(MIDDLE[NEWEST], PAGE + 22, "summary 3")
    yield text(MIDDLE[CHANGED], PAGE + 22, "key")
    yield arrow(MIDDLE[NEWEST], CHAIN, MIDDLE[NEWEST], PAGE + 42, GREEN_EDGE)
    kept = ["only the newest", "summary is kept"]
    yield from lines(MIDDLE[NEWEST] + 12, REQUESTS - 5, kept, size=12, fill=SOFT, anchor="start")


def explanation():
    yield text(LEFT, PAGE - 28, "A new summary is SHA-256 of the old one and the request.", anchor="start")
    yield text(LEFT, PAGE - 11, "So it stands for all requests up to there, in their order.", anchor="start")


def chain():
    """The summaries, and between each two the request that leads from one to the next."""
    half = 50
    for i in range(4):
        fill, edge = (GREEN, GREEN_EDGE) if i == NEWEST else (BLUE, BLUE_EDGE)
        yield box(MIDDLE[i] - half, CHAIN, 2 * half, 36, fill, edge)
        if i == 0:
            yield text(MIDDLE[i], CHAIN + 16, "summary 0", size=12)
            yield text(MIDDLE[i], CHAIN + 29, "32 zero bytes", size=11, fill=SOFT)
        else:
            yield text(MIDDLE[i], CHAIN + 23, f"summary {i}")
    for i in range(3):
        between = (MIDDLE[i] + MIDDLE[i + 1]) // 2
        yield box(between - 38, REQUESTS - 16, 76, 24, WHITE, LINE, radius=12)
        yield text(between, REQUESTS + 1, f"request {i + 1}", size=12)
        yield arrow(between, REQUESTS + 8, between, CHAIN + 10)
        yield arrow(MIDDLE[i] + half, CHAIN + 18, MIDDLE[i + 1] - half - 8, CHAIN + 18)


def record(at, name, rows, decides, fill, edge):
    """A record, with its rows; those that decide what the keeper says of it are in colour."""
    left = MIDDLE[at] - COLUMN // 2
    yield text(MIDDLE[at], RECORDS - 9, name, weight="bold")
    for row, words in enumerate(rows):
        yield box(left, RECORDS + ROW * row, COLUMN, ROW, fill if row in decides else WHITE, LINE, radius=0)
        yield text(MIDDLE[at], RECORDS + ROW * row + 20, words, size=12)
    for row in decides:
        yield box(left, RECORDS + ROW * row, COLUMN, ROW, "none", edge, radius=0, thick=1.8)


def records():
    """What the site computer stores."""
    yield box(8, RECORDS - 54, WIDTH - 16, HEIGHT - RECORDS + 46, ZONE, "none", radius=8)
    where = "The site computer, which nobody trusts: records of 451 bytes"
    yield text(LEFT, RECORDS - 34, where, anchor="start", weight="bold")
    for i in range(4):
        rows = (f"racks after request {i}" if i else "empty racks", f"summary {i}", "authenticator of both")
        yield from record(i, f"record {i}", rows, [1], *((GREEN, GREEN_EDGE) if i == NEWEST else (RED, RED_EDGE)))
    rows = ("other racks", f"summary {NEWEST}", "same authenticator")
    yield from record(CHANGED, f"record {NEWEST}, changed", rows, [0, 2], RED, RED_EDGE)


def verdict(at, words, edge, why):
    yield text(MIDDLE[at], VERDICTS, words, fill=edge, weight="bold")
    yield from lines(MIDDLE[at], VERDICTS + 22, why)


def verdicts():
    """What perform and view say of each record."""
    left, right = MIDDLE[0] - COLUMN // 2, MIDDLE[2] + COLUMN // 2
    under = RECORDS + 3 * ROW + 8
    yield f'<path d="M {left} {under} v 8 H {right} v -8" fill="none" stroke="{RED_EDGE}" stroke-width="1.5"/>'
    why = ["The authenticators are valid: these records were current once.", "But their summaries are not the page's."]
    yield from verdict(1, "Old copies: refusal 8", RED_EDGE, why)
    yield from verdict(NEWEST, "Current: accepted", GREEN_EDGE, ["Valid, and its", "summary is", "the page's."])
    yield from verdict(CHANGED, "Changed: refusal 7", RED_EDGE, ["These racks have", "another", "authenticator."])
    notes = [
        "So say perform and view. For a lost answer, repeat takes record 2 with request 3 and gives record 3 again.",
        "An authenticator is the HMAC of the binding of summary and racks. Only the page's key makes one.",
    ]
    yield from lines(LEFT, HEIGHT - 37, notes, fill=SOFT, anchor="start", size=12)


def drawn():
    """The picture, which has a ground of its own, so that it reads on a dark page too."""
    parts = [box(0.5, 0.5, WIDTH - 1, HEIGHT - 1, PAPER, "#d0d7de", radius=8, thick=1)]
    for part in (records, page, explanation, chain, verdicts):
        parts += part()
    return "\n".join(
        [
            f'<svg xmlns="http://www.w3.org/2000/svg" width="{WIDTH}" height="{HEIGHT}" viewBox="0 0 {WIDTH} {HEIGHT}"'
            ' font-family="Helvetica, Arial, \'DejaVu Sans\', sans-serif" role="img">',
            "<title>The chain of summaries, the page, and the records</title>",
            "<defs>",
            *(
                f'<marker id="{name}" viewBox="0 0 8 8" refY="4" markerWidth="6" markerHeight="6" orient="auto">'
                f'<path d="M 0 0 L 8 4 L 0 8 z" fill="{color}"/></marker>'
                for color, name in HEADS.items()
            ),
            "</defs>",
            *parts,
            "</svg>",
            "",
        ]
    )


def main():
    if sys.argv[1:] == ["--check"]:
        if not PICTURE.is_file() or PICTURE.read_text("utf-8") != drawn():
            sys.exit(f"picture: FAILED: {PICTURE.name} is not what tools/picture.py draws")
        print("picture: docs/chain.svg is what tools/picture.py draws")
    elif sys.argv[1:]:
        sys.exit(__doc__)
    else:
        PICTURE.write_text(drawn(), "utf-8")


if __name__ == "__main__":
    main()
