#!/usr/bin/env python3
"""Prints each definition that a clause cites, by crate, with its file and the comment above it.

From the top of the repository: python3 docs/definitions.py [CRATE ..]
"""
import collections
import pathlib
import re
import sys

ROOT = pathlib.Path(__file__).resolve().parent.parent
USE = re.compile(r"ghost use Rattle\.(adr_\w+)\.specs\.(\w+)\.\{([^}]*)\};")
HEAD = re.compile(r"^\s*(?:abbrev |unfoldable )?pub (?:data |record )?(\S+)")
CASE = re.compile(r"^  (\w+) :")


def cited():
    """The names that clauses bring in from the specs of this repository, by crate and file."""
    names = collections.defaultdict(set)
    for source in sorted(ROOT.glob("crates/*/src/**/*.rt")):
        for crate, module, group in USE.findall(source.read_text()):
            if module != "declared":
                names[crate, module].update(n.split(" as ")[0].strip() for n in group.split(","))
    return names


def described(path):
    """What stands in comments above each definition of a file, its cases too."""
    words, found = [], {}
    for line in path.read_text().splitlines():
        if line.strip().startswith("--"):
            words.append(line.strip().lstrip("- "))
            continue
        head = HEAD.match(line) or CASE.match(line)
        if head:
            found.setdefault(head.group(1), " ".join(words))
        words = []
    return found


def main(wanted):
    names = cited()
    for crate in (line.split(":")[0] for line in (ROOT / "crates.txt").read_text().splitlines()):
        files = sorted(module for owner, module in names if owner == crate)
        if not files or (wanted and crate not in wanted):
            continue
        print(f"\n{crate}")
        for module in files:
            path = ROOT / "crates" / crate / "specs" / f"{module}.antt"
            found = described(path)
            for name in sorted(names[crate, module]):
                print(f"  {name} ({module}.antt): {found.get(name) or 'as its name says'}")


main(set(sys.argv[1:]))
