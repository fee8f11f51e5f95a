#!/usr/bin/env python3
"""Checks that what stands twice in this repository is the same.

    tools/check_copies.py

The input and the output of the program's run in the gate (crates/emeralds) are the example one_shot and what its run
writes (crates/cases/data). Each fenced block of README.md that begins with `%table` or `%trace`, or as a listing does,
stands in a file of crates/cases/data: a bundle, what a run writes or a listing, whole or in part, line by line. In such a
block and in the file a comment, from `#` on, and the blanks before it are left out, and so are empty lines. Prints what
differs, and ends with status 1 where anything does.
"""

import re
import sys
from pathlib import Path

TOP = Path(__file__).resolve().parent.parent
DATA = TOP / "crates" / "cases" / "data"

# A copy, and the file that it is a copy of.
COPIES = [
    (TOP / "crates" / "emeralds" / "stdin", DATA / "one_shot.bundle"),
    (TOP / "crates" / "emeralds" / "stdout", DATA / "one_shot.trace"),
]

# How the blocks begin that show a file, and the endings of the files that they may show.
KINDS = [
    (re.compile(r"%table\b"), "bundle"),
    (re.compile(r"%trace\b"), "trace"),
    (re.compile(r"[0-9a-f]{8}: [0-9a-f]{8} "), "listing"),
]


def bare(text):
    """The lines of a text without comments, blanks at their ends and empty lines."""
    lines = (line.split("#")[0].rstrip() for line in text.splitlines())
    return [line for line in lines if line]


def blocks(text):
    """The fenced blocks of a Markdown text, each with the number of its first line."""
    found, start = [], None
    for number, line in enumerate(text.splitlines(), 1):
        if line.lstrip().startswith("```"):
            if start is None:
                start, inside = number + 1, []
            else:
                found.append((start, "\n".join(inside)))
                start = None
        elif start is not None:
            inside.append(line)
    return found


def ending_of(block):
    """The ending of the files that a block may show, or none where it shows no file."""
    for beginning, ending in KINDS:
        if beginning.match(block):
            return ending
    return None


def stands_in(part, whole):
    """Whether the lines stand in the other lines, one after the other."""
    return any(whole[at : at + len(part)] == part for at in range(len(whole) - len(part) + 1))


def check_files():
    """The copies that differ, and how many were compared."""
    wrong = []
    for copy, source in COPIES:
        if copy.read_bytes() != source.read_bytes():
            wrong.append(f"{copy.relative_to(TOP)} is not {source.relative_to(TOP)}")
    return wrong, len(COPIES)


def check_blocks(page):
    """The blocks of a page that stand in no file, and how many were compared."""
    wrong, compared = [], 0
    for number, block in blocks(page.read_text(encoding="utf-8")):
        ending = ending_of(block)
        if ending is None:
            continue
        compared += 1
        files = sorted(DATA.glob(f"*.{ending}"))
        if not any(stands_in(bare(block), bare(file.read_text(encoding="utf-8"))) for file in files):
            wrong.append(f"{page.relative_to(TOP)}:{number}: the block stands in no .{ending} file of crates/cases/data")
    return wrong, compared


def main():
    wrong, compared = check_files()
    more, blocks_compared = check_blocks(TOP / "README.md")
    wrong += more
    for line in wrong:
        print(line)
    print(f"{compared + blocks_compared} copies compared, {len(wrong)} differ")
    return 1 if wrong else 0


if __name__ == "__main__":
    sys.exit(main())
