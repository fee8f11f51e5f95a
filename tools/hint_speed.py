#!/usr/bin/env python3
"""Measures how fast hints are found and written.

    tools/hint_speed.py PROGRAM

PROGRAM is the proved program, crates/emeralds/out/emeralds. It is run with `hint` on bundles that are made here, and with
`list`, which reads the same and finds the hints too, on the first of them; the best of five processor times is written for each.
"""

import resource
import subprocess
import sys

HEAD = """%table
horizon = 1000
semaphores = 4
[[task]]
name = "a"
entry = "main"
kind = "background"
%code
main: nop
"""
ACQUIRE = "li a7, 2\nli a0, 3\necall\n"
WORDS = 16384
INPUT = 16 << 20


def bundle(code):
    return (HEAD + code + "%script\n").encode()


def every_fourth():
    """16,384 code words with a `waitjob` at every fourth."""
    return bundle("nop\nnop\nnop\n" + "waitjob\nnop\nnop\n" * (WORDS // 4 - 1))


def acquires():
    """The same number of words, each `waitjob` with an acquire behind it, behind a branch and a load."""
    unit = "waitjob\nli t0, 0x10000000\nlw t1, 0(t0)\nbeq t1, zero, 8\nnop\n" + ACQUIRE
    return bundle(unit * ((WORDS - 1) // 9))


def all_ways_long():
    """As many `waitjob` statements as fit, each with a jump to the same walk: six branches, each side as long as it may be."""
    walk = "beq a1, a2, 4\n" * 6 + "nop\n" * (31 - 6 - 2) + ACQUIRE
    count = (WORDS - 1 - 32) // 3
    return bundle("waitjob\nj walk\n" * count + "walk: " + walk)


def long_lines():
    """An input of 16 MiB: `waitjob` lines with an acquire behind each, and a comment in every line."""
    unit = "waitjob # %s\n" + "".join(line + " # %s\n" for line in ACQUIRE.split("\n")[:-1])
    count = WORDS // 5 - 1
    room = (INPUT - len(bundle(""))) // count - len(unit) + 8
    return bundle((unit % (("x" * (room // 4),) * 4)) * count)


def empty_lines():
    """An input of 16 MiB, nearly all of empty lines."""
    body = "waitjob\n" + ACQUIRE
    return bundle(body + "\n" * (INPUT - len(bundle(body))))


def seconds(program, command, given):
    best = None
    for _ in range(5):
        before = resource.getrusage(resource.RUSAGE_CHILDREN)
        done = subprocess.run([program, command], input=given, stdout=subprocess.DEVNULL)
        after = resource.getrusage(resource.RUSAGE_CHILDREN)
        if done.returncode != 0:
            sys.exit(f"{command} ends with status {done.returncode}")
        spent = after.ru_utime + after.ru_stime - before.ru_utime - before.ru_stime
        best = spent if best is None else min(best, spent)
    return best


def main():
    if len(sys.argv) != 2:
        sys.exit(__doc__)
    program = sys.argv[1]
    kinds = [every_fourth, acquires, all_ways_long, long_lines, empty_lines]
    print(f"list {every_fourth.__name__}: {seconds(program, 'list', every_fourth()):.3f} s")
    for kind in kinds:
        given = kind()
        print(f"hint {kind.__name__}, {len(given)} bytes: {seconds(program, 'hint', given):.3f} s")


main()
