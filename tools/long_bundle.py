#!/usr/bin/env python3
"""Writes a bundle of just 16 MiB, the greatest length, whose code part is filled up with lines of one kind.

    tools/long_bundle.py comments | /usr/bin/time -v crates/emeralds/out/emeralds list

The kinds are `comments` and `blanks`, which are empty lines.
"""

import sys

LIMIT = 16 * 1024 * 1024

HEAD = """%table
horizon = 1000
[[task]]
name = "a"
entry = "a"
kind = "timer"
period = 1000
deadline = 1000
cost = 900
%code
a: li a7, 8
ecall
"""

END = "%script\n"

LINES = {"comments": "# a comment that says nothing\n", "blanks": "\n"}


def main(words):
    """Writes the bundle of the kind that the one word names."""
    if len(words) != 1 or words[0] not in LINES:
        sys.exit(__doc__)
    room = LIMIT - len(HEAD) - len(END)
    line = LINES[words[0]]
    sys.stdout.write(HEAD + "\n" * (room % len(line)) + line * (room // len(line)) + END)


main(sys.argv[1:])
