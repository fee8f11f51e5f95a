#!/usr/bin/env python3
"""Measures the processor time that the gate takes for each crate, and prints a table in Markdown.

    tools/time_gate.py [NAME..]

Runs `rt ci` on a copy of the crates as they stand, and looks several times a second at the processes that it starts: how much
processor time, user and system, each check took, of which crate it is, and of which of its parts. The parts are the
crate's own proof, the proof of its tests, and its must-fail edits. What `rt` spends beside them, and the tests and
programs that it runs, stand in the last line.

Without names everything is proved anew. With names these crates alone are: each gets one more line of comment, so that
nothing that was kept of it fits, and what is kept of the crates below them serves (what isn't kept is proved too, and
has a line of its own). Lines of the run come on standard error. Ends with the status of `rt ci`.
"""

import os
import re
import resource
import shutil
import subprocess
import sys
import tempfile
import threading
import time
from pathlib import Path

TOP = Path(__file__).resolve().parent.parent
PARTS = ["proof", "tests", "edits"]

# How often the processes are looked at, in seconds.
PAUSE = 0.1

TICKS = os.sysconf("SC_CLK_TCK")


def copy_to(folder, names):
    """Copies what the gate reads, and changes the named crates by a comment."""
    skip = shutil.ignore_patterns("out")
    shutil.copytree(TOP / "crates", folder / "crates", ignore=skip)
    for name in ("crates.txt", "HANDLES"):
        if (TOP / name).exists():
            shutil.copy(TOP / name, folder / name)
    for name in names:
        src = folder / "crates" / name / "src"
        root = next(file for file in (src / "main.rt", src / "lib.rt") if file.exists())
        root.write_text(root.read_text(encoding="utf-8") + f"// Measured at {time.time_ns()}.\n", encoding="utf-8")


def stat_of(process):
    """The parent of a process, when it began, and the ticks of it and of its ended children, or none where it has ended."""
    try:
        text = Path(f"/proc/{process}/stat").read_text(encoding="utf-8", errors="replace")
    except OSError:
        return None
    words = text[text.rindex(")") + 2 :].split()
    return int(words[1]), int(words[19]), sum(int(word) for word in words[11:15])


def part_of(process):
    """The crate and the part that a check is of, or none where the process is no check."""
    try:
        words = Path(f"/proc/{process}/cmdline").read_bytes().decode(errors="replace").split("\0")
        folder = os.readlink(f"/proc/{process}/cwd")
    except OSError:
        return None
    if os.path.basename(words[0]) != "rattle" or "--crate-name" not in words[:-1]:
        return None
    crate = words[words.index("--crate-name") + 1]
    if os.path.basename(folder) != crate:
        return crate, "edits"
    return crate, "tests" if "--test" in words else "proof"


class Times:
    """The ticks of the checks that were seen below a process."""

    def __init__(self, root):
        self.root = root
        self.ticks = {}
        self.parts = {}

    def look(self):
        """Looks at the processes once."""
        stats = {int(name): stat_of(name) for name in os.listdir("/proc") if name.isdigit()}
        stats = {process: stat for process, stat in stats.items() if stat}
        children = {}
        for process, (parent, _, _) in stats.items():
            children.setdefault(parent, []).append(process)

        def ticks_of(process):
            return stats[process][2] + sum(ticks_of(child) for child in children.get(process, []))

        def walk(process):
            key = process, stats[process][1]
            part = self.parts.get(key) or part_of(process)
            if part:
                # the jobs of a check count with it
                self.parts[key] = part
                self.ticks[key] = max(self.ticks.get(key, 0), ticks_of(process))
            else:
                for child in children.get(process, []):
                    walk(child)

        if self.root in stats:
            walk(self.root)

    def seconds(self):
        """The seconds by crate and part."""
        total = {}
        for key, ticks in self.ticks.items():
            crate, part = self.parts[key]
            row = total.setdefault(crate, dict.fromkeys(PARTS, 0.0))
            row[part] += ticks / TICKS
        return total


def run(folder, names):
    """Runs the gate in a folder, and gives its status, the times of its checks and all of its processor time."""
    words = ["rt", "ci", *(names or ["--anew"])]
    before = resource.getrusage(resource.RUSAGE_CHILDREN)
    gate = subprocess.Popen(words, cwd=folder, stdin=subprocess.DEVNULL, stdout=sys.stderr)
    times = Times(gate.pid)
    ended = threading.Event()

    def watch():
        while not ended.wait(PAUSE):
            times.look()

    watcher = threading.Thread(target=watch)
    watcher.start()
    status = gate.wait()
    ended.set()
    watcher.join()
    after = resource.getrusage(resource.RUSAGE_CHILDREN)
    return status, times, after.ru_utime - before.ru_utime + after.ru_stime - before.ru_stime


def order():
    """The crates as crates.txt has them, lowest first."""
    lines = (TOP / "crates.txt").read_text(encoding="utf-8").splitlines()
    return [re.split(r"[ :]", line)[0] for line in lines if re.match(r"\w", line)]


def table(seconds, whole):
    """The table of seconds by crate and part, with a line for all of them and one for the rest of the run."""
    yield "| Crate | Proof | Tests | Edits | Sum |"
    yield "|---|---:|---:|---:|---:|"
    names = [name for name in order() if name in seconds]
    for name in names:
        row = [seconds[name][part] for part in PARTS]
        yield "| " + " | ".join([name, *(f"{value:.0f}" for value in [*row, sum(row)])]) + " |"
    sums = [sum(seconds[name][part] for name in names) for part in PARTS]
    yield "| " + " | ".join(["all", *(f"{value:.0f}" for value in [*sums, sum(sums)])]) + " |"
    yield f"| the rest of the run | | | | {max(whole - sum(sums), 0):.0f} |"


def main():
    names = sys.argv[1:]
    unknown = [name for name in names if name not in order()]
    if unknown:
        print(f"crates.txt has no crate {unknown[0]}", file=sys.stderr)
        return 2
    with tempfile.TemporaryDirectory(prefix="time-gate-") as room:
        copy_to(Path(room), names)
        status, times, whole = run(room, names)
    print("Seconds of processor time:\n")
    print("\n".join(table(times.seconds(), whole)))
    return status


if __name__ == "__main__":
    sys.exit(main())
