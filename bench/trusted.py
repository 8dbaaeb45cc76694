#!/usr/bin/env python3
"""Compares the lines that docs/TRUSTED.md tells of each file of definitions, and their sums, with the files, and tells what differs.

usage: bench/trusted.py [--write]

A row of the page has the lines of a file and, of them, its definitions: those that are no import, no sentence and not empty. Below
each heading of the table stand the sums of its rows. With --write the page is given the numbers of the files. The status is 1 where
something differs and isn't written.
"""
import pathlib
import re
import sys

ROOT = pathlib.Path(__file__).resolve().parent.parent
PAGE = ROOT / "docs" / "TRUSTED.md"
ROW = re.compile(r"^\| `([\w/]+)` \| [\d,]+ \| [\d,]+ \|$")
HEAD = re.compile(r"^\| \*\*(.+)\*\* \| \*\*[\d,]+\*\* \| \*\*[\d,]+\*\* \|$")
NO_DEFINITION = re.compile(r"\s*((pub )?use .*|--.*)?$")


def counts_of(name):
    """How many lines a file has, and how many of them are definitions."""
    lines = (ROOT / "crates" / f"{name}.antt").read_text().splitlines()
    return len(lines), sum(1 for line in lines if not NO_DEFINITION.match(line))


def counted(page):
    """The page with the right numbers."""
    new, part, whole = list(page), None, [0, 0]
    sums = {}
    for number, line in enumerate(page):
        head, row = HEAD.match(line), ROW.match(line)
        if head:
            part = number
            sums[part] = [head.group(1), 0, 0]
        elif row:
            lines, definitions = counts_of(row.group(1))
            new[number] = f"| `{row.group(1)}` | {lines:,} | {definitions:,} |"
            for place, many in ((1, lines), (2, definitions)):
                sums[part][place] += many
                whole[place - 1] += many
    for number, (name, lines, definitions) in sums.items():
        if name == "together":
            lines, definitions = whole
        new[number] = f"| **{name}** | **{lines:,}** | **{definitions:,}** |"
    return new


def main():
    old = PAGE.read_text().splitlines()
    new = counted(old)
    differing = [f"{before} -> {after}" for before, after in zip(old, new) if before != after]
    print("\n".join(differing) or "all as told")
    if "--write" in sys.argv[1:]:
        PAGE.write_text("\n".join(new) + "\n")
    elif differing:
        sys.exit(1)


if __name__ == "__main__":
    main()
