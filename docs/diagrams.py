#!/usr/bin/env python3
"""Writes the diagrams of docs/architecture.md: docs/pictures/layers.svg from crates.txt, and docs/pictures/flow.svg from the
tables below.

From the top of the repository: python3 docs/diagrams.py [--check]     --check writes nothing, and fails where one differs
"""
import html
import pathlib
import sys
import textwrap

ROOT = pathlib.Path(__file__).resolve().parent.parent
PICTURES = ROOT / "docs" / "pictures"

# A box: its name, its column and row, how many columns and rows it takes, its lines, and its kind.
REQUEST = """
asker  | 0 0 1 1 | site or operator            | peer
read   | 1 0 1 1 | worker thread / reads bytes: adr_request | node
asked  | 2 0 1 1 | what it asks, whose role / adr_http, adr_asked | node
lock   | 3 0 1 1 | the lock: one at a time / adr_lock, adr_book | node
desk   | 4 0 1 1 | desk: one transaction / adr_desk | node
file   | 5 0 1 1 | SQLite file / or memory | store
reply  | 2 1 1 1 | reply, outside the lock / adr_reply | node
"""
REQUEST_ARROWS = """
asker read  | bytes
read asked  | request
asked lock  | command
lock desk   | step
desk file   | commit
lock reply  | answer
reply asker | bytes
"""
ORDER = """
vtn    | 0 2 1 1 | utility (VTN)                  | peer
poller | 1 2 1 1 | poller: pages, in rounds / adr_work, adr_link | node
edit   | 2 2 1 1 | edit: the mirror / adr_state | node
view   | 3 2 1 1 | what is shown: / the split, adr_view | node
commit | 4 2 1 1 | commit: stamps, entries / adr_notices | node
outbox | 5 2 1 1 | outbox, in the file / adr_delivery | store
send   | 4 3 1 1 | dispatcher, senders / adr_work | node
sites  | 3 3 1 1 | sites (VENs) | peer
sum    | 2 3 1 1 | reports, roll-up / adr_view | node
"""
ORDER_ARROWS = """
vtn poller   | events
poller edit  | evidence
edit view    | base
view commit  | changes
commit outbox | entries
outbox send  | lease
send sites   | notification
sites sum    | POST /reports
sum vtn      | one report, by the outbox
"""
WIDE, HIGH, GAP, ROOM = 172, 46, 84, 84
COLOURS = {"peer": "#e8eef7", "node": "#f4f1e6", "store": "#e6f2e8"}


def svg(width, height, parts):
    """Returns a picture of these parts."""
    head = (
        f'<svg xmlns="http://www.w3.org/2000/svg" viewBox="0 0 {width} {height}" width="{width}" height="{height}" '
        'font-family="sans-serif" font-size="12">\n'
        '<defs><marker id="tip" viewBox="0 0 8 8" refX="8" refY="4" markerWidth="8" markerHeight="8" orient="auto">'
        '<path d="M0 0 8 4 0 8z"/></marker></defs>\n'
        f'<rect width="{width}" height="{height}" fill="white"/>\n'
    )
    return head + "\n".join(parts) + "\n</svg>\n"


def text(x, y, line, more=""):
    return f'<text x="{x}" y="{y}" text-anchor="middle"{more}>{html.escape(line)}</text>'


def box(x, y, width, height, lines, colour, first=""):
    """Returns a box with its lines in the middle; `first` is said of the first of them."""
    top = y + height / 2 + 4 - 8 * (len(lines) - 1)
    return [
        f'<rect x="{x}" y="{y}" width="{width}" height="{height}" rx="4" fill="{colour}" stroke="#555"/>',
        *(text(x + width / 2, top + 16 * at, it, "" if at else first) for at, it in enumerate(lines)),
    ]


def cells(table):
    return [[it.strip() for it in line.split("|")] for line in table.strip().splitlines()]


def chart(boxes, arrows, parts):
    """Adds the boxes of a table, and its arrows: along a row, down a column, or around below a row."""
    places = {}
    for name, place, lines, kind in cells(boxes):
        column, row, columns, rows = map(int, place.split())
        x, y = 10 + column * (WIDE + GAP), 40 + row * ROOM
        places[name] = x, y
        parts += box(x, y, WIDE * columns, HIGH * rows, [it.strip() for it in lines.split("/", 1)], COLOURS[kind])
    for ends, label in cells(arrows):
        (x1, y1), (x2, y2) = (places[it] for it in ends.split())
        if y1 == y2:
            way = 1 if x2 > x1 else -1
            begin, end = (x1 + WIDE, x2) if way > 0 else (x1, x2 + WIDE)
            path, at = f"M{begin} {y1 + HIGH / 2}H{end}", ((begin + end) / 2, y1 + HIGH / 2 - 6)
        elif y2 > y1:
            end = x2 + WIDE
            path, at = f"M{x1 + WIDE / 2} {y1 + HIGH}V{y2 + HIGH / 2}H{end}", ((x1 + WIDE / 2 + end) / 2, y2 + HIGH / 2 - 6)
        else:
            path, at = f"M{x1} {y1 + HIGH / 2}H{x2 + WIDE / 2}V{y2 + HIGH}", ((x1 + x2 + WIDE / 2) / 2, y1 + HIGH / 2 - 6)
        parts += [f'<path d="{path}" fill="none" stroke="black" marker-end="url(#tip)"/>', text(*at, label, ' font-size="11"')]
    return parts


def flow():
    """Returns the picture of a request's way and of an order's."""
    title = ' font-weight="bold" font-size="14"'
    parts = [text(86, 24, "The way of a request", title), text(88, 24 + 2 * ROOM, "The way of an order", title)]
    chart(REQUEST, REQUEST_ARROWS, parts)
    chart(ORDER, ORDER_ARROWS, parts)
    return svg(20 + 6 * WIDE + 5 * GAP, 20 + 4 * ROOM, parts)


def layers():
    """Returns the picture of the layers of crates.txt, each above those that its crates stand on."""
    names, of_crate, uses = [], {}, {}
    for line in (ROOT / "crates.txt").read_text().splitlines():
        if line.startswith("#"):
            names.append(line.strip("# "))
            uses[names[-1]] = set()
        elif ":" in line:
            crate, below = line.split(":")
            of_crate[crate.split()[0]] = names[-1]
            uses[names[-1]].update(of_crate[it] for it in below.split() if it in of_crate)
    levels = {}
    for it in names:
        levels[it] = 1 + max((levels[below] for below in uses[it] - {it}), default=-1)
    width, parts, top = 940, [], max(levels.values())
    for level in range(top + 1):
        here = [it for it in names if levels[it] == level]
        each = (width - 20 - 12 * (len(here) - 1)) / len(here)
        for at, it in enumerate(here):
            crates = [crate for crate in of_crate if of_crate[crate] == it]
            below = [use for use in names if use in uses[it] - {it}]
            words = f"uses: {'; '.join(below)}" if below else "uses no other"
            names_of = "  ".join(crate.removeprefix("adr_") for crate in crates)
            lines = [it, *textwrap.wrap(names_of, int(each / 6.6)), *textwrap.wrap(words, int(each / 6.6))]
            parts.append((level, at, each, lines))
    found, y = [], 10
    for level in range(top, -1, -1):
        here = [it for it in parts if it[0] == level]
        height = 24 + 16 * max(len(it[3]) for it in here)
        for _, at, each, lines in here:
            found += box(10 + at * (each + 12), y, each, height, lines, list(COLOURS.values())[level % 3], ' font-weight="bold"')
        y += height + 12
    return svg(width, y, found)


def main(words):
    wrong = []
    for name, made in (("layers.svg", layers()), ("flow.svg", flow())):
        path = PICTURES / name
        if words != ["--check"]:
            path.write_text(made)
        elif not path.is_file() or path.read_text() != made:
            wrong.append(f"docs/pictures/{name}: differs from its text: run docs/diagrams.py")
    print("".join(f"{it}\n" for it in wrong), end="")
    return 1 if wrong else 0


if __name__ == "__main__":
    sys.exit(main(sys.argv[1:]))
