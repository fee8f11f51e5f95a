#!/usr/bin/env python3
"""Measures how fast the program runs bundles on its kernel.

    tools/kernel_speed.py [RUNS]

It runs each of seven bundles so many times, 3 if no number is given, and writes the least processor time of each in seconds, with how
many lines its trace has, how many steps its tasks took and how it ended:

    busy      one task in a loop of a load, an addition, a store and a jump, which is the loop of hart_speed, to the greatest horizon
    contend   32 tasks that contend for 8 semaphores, to the greatest horizon
    events    200,000 releases by timers and 100,000 events of the script
    lines     a task that puts words to a port: 900,000 lines of trace
    messages  16 messages of 16 words, each with a writer and a reader, in buffers of 64 values, to the greatest horizon
    copies    a task that reads 16 words of a message again and again, to the greatest horizon
    loads     a task that loads 16 words again and again, to the greatest horizon

Then it runs 32 tasks, of which the first goes round the loop of `busy` to the horizon, by `trial` and by `replay` under the schedule
that `trial` wrote, and 300,000 lines of a schedule by `replay`.

The program must be built: `cd crates/emeralds && rt run -- list < ../cases/data/one_shot.bundle`. Where hart_speed is built too, its
time for as many instructions as those of `busy` stands beside.
"""

import os
import resource
import subprocess
import sys

HERE = os.path.dirname(os.path.abspath(__file__))
PROGRAM = os.path.join(HERE, "../crates/emeralds/out/emeralds")
HART = os.path.join(HERE, "../crates/hart_speed/out/hart_speed")

HORIZON = 20_000_000

# The loop of `busy` takes four instructions and six cycles.
BUSY_INSTRUCTIONS = HORIZON // 6 * 4


def task(name, period, phase=0, uses="", band=None):
    """A timer task that starts at a label of its name."""
    lines = ["[[task]]", f'name = "{name}"', f'entry = "{name}"', 'kind = "timer"', f"period = {period}", f"phase = {phase}",
             f"deadline = {period}", "cost = 1000", f"uses = [{uses}]"]
    if band is not None:
        lines.append(f"band = {band}")
    return "\n".join(lines) + "\n"


def bundle(tasks, code, script="", semaphores=0):
    """The bundle of these parts, to the greatest horizon."""
    return f"%table\nhorizon = {HORIZON}\nsemaphores = {semaphores}\n{''.join(tasks)}%code\n{code}%script\n{script}"


def busy():
    """One task that counts in its own window."""
    code = "a: li s0, 0x10000000\nloop: lw t0, 0(s0)\naddi t0, t0, 1\nsw t0, 0(s0)\nj loop\n"
    return bundle([task("a", HORIZON)], code)


def contend():
    """32 tasks; four of them take each semaphore, and keep it for a while."""
    tasks = []
    code = []
    for t in range(32):
        band = t // 8 if t < 16 else None
        tasks.append(task(f"t{t}", 4_000 + 150 * t, 60 * (31 - t), str(t % 8), band))
        code.append(f"t{t}: li a7, 2\nli a0, {t % 8}\necall\nli t0, 20\nw{t}: addi t0, t0, -1\nbne t0, zero, w{t}\n"
                    f"li a7, 3\nli a0, {t % 8}\necall\nli a7, 1\necall\nj t{t}\n")
    return bundle(tasks, "".join(code), semaphores=8)


def events():
    """20 tasks with 10,000 releases each, and a script that unplugs a port 100,000 times."""
    tasks = [task(f"t{t}", 2_000, 50 * t) for t in range(20)]
    code = "".join(f"t{t}:\n" for t in range(20)) + "li a7, 1\necall\nj -8\n"
    script = "".join(f"{200 * k} unplug 0\n" for k in range(100_000))
    return bundle(tasks, code, script)


def lines():
    """One task that puts a word to a port at each call."""
    return bundle([task("a", HORIZON)], "a: li a7, 4\nli a0, 5\nloop: ecall\nj loop\n")


def crowd():
    """32 tasks that are released at 0, and the first never ends."""
    code = "a: li s0, 0x10000000\nloop: lw t0, 0(s0)\naddi t0, t0, 1\nsw t0, 0(s0)\nj loop\n"
    return bundle([task(f"t{t}", HORIZON).replace(f'entry = "t{t}"', 'entry = "a"') for t in range(32)], code)


def with_messages(text, messages):
    """The bundle with the rows of messages behind its tasks: their words, their writers and their readers."""
    rows = "".join(f'[[message]]\nwords = {words}\nwriter = "{writer}"\nreaders = ["{reader}"]\n' for words, writer, reader in messages)
    return text.replace("%code\n", rows + "%code\n", 1)


def messages():
    """32 tasks; sixteen write a message of 16 words each, and the others read them. Each buffer keeps 64 values."""
    tasks = [task(f"w{m}", 10_000, 100 * m).replace("deadline = 10000", "deadline = 5000\nwrites = 31") for m in range(16)]
    tasks += [task(f"r{m}", 10_000, 130 * m).replace("deadline = 10000", "deadline = 5000") for m in range(16)]
    code = "".join(f"w{m}: li a7, 5\nli a0, {m}\nli a1, 0x10000000\necall\nwaitjob\nj w{m}\n" for m in range(16))
    code += "".join(f"r{m}: li a7, 6\nli a0, {m}\nli a1, 0x10000000\necall\nwaitjob\nj r{m}\n" for m in range(16))
    return with_messages(bundle(tasks, code), [(16, f"w{m}", f"r{m}") for m in range(16)])


def copies():
    """One task that reads a message of 16 words again and again, some 364,000 times."""
    code = "a: li a7, 6\nli a1, 0x10000000\nloop: li a0, 0\necall\nj loop\n"
    return with_messages(bundle([task("a", HORIZON)], code), [(16, "a", "a")])


def loads():
    """One task that loads 16 words again and again, some 606,000 times."""
    words = "".join(f"lw t1, {4 * i}(t0)\n" for i in range(16))
    return bundle([task("a", HORIZON)], f"a: li t0, 0x10000000\nloop: {words}j loop\n")


def seconds(words, text):
    """The processor time of the program on a text, and what it wrote."""
    before = resource.getrusage(resource.RUSAGE_CHILDREN)
    done = subprocess.run(words, input=text.encode(), stdout=subprocess.PIPE, check=True)
    after = resource.getrusage(resource.RUSAGE_CHILDREN)
    return after.ru_utime + after.ru_stime - before.ru_utime - before.ru_stime, done.stdout.decode()


def parts(text):
    """The parts of an output, by their names: the lines of each."""
    found = {}
    for line in text.splitlines():
        if line.startswith("%"):
            lines = found[line[1:]] = []
        else:
            lines.append(line)
    return found


def main(words):
    """Measures each bundle."""
    runs = int(words[0]) if words else 3
    for name, text in (("busy", busy()), ("contend", contend()), ("events", events()), ("lines", lines()), ("messages", messages()),
                       ("copies", copies()), ("loads", loads())):
        times = [seconds([PROGRAM, "trial"], text) for _ in range(runs)]
        out = parts(times[0][1])
        count = out["schedule"][-1].split()[0]
        print(f"{name}: {min(time for time, _ in times):.3f} s, {len(out['trace'])} lines of trace, {count} steps, {out['end'][0]}")
    own = parts(seconds([PROGRAM, "trial"], crowd())[1])["schedule"]
    schedule = "%schedule\n" + "".join(f"{line}\n" for line in own)
    times = [(seconds([PROGRAM, "trial"], crowd())[0], seconds([PROGRAM, "replay"], crowd() + schedule)[0]) for _ in range(runs)]
    print(f"32 tasks: trial {min(a for a, _ in times):.3f} s, replay {min(b for _, b in times):.3f} s")
    schedule = "%schedule\n" + "0 rel 0 0 0\n" * 300_000 + "0 end\n"
    print(f"300,000 lines of a schedule: {min(seconds([PROGRAM, 'replay'], crowd() + schedule)[0] for _ in range(runs)):.3f} s")
    print(f"bench: {min(seconds([PROGRAM, 'bench', '--number', '7'], '')[0] for _ in range(runs)):.3f} s")
    if os.path.exists(HART):
        least = min(seconds([HART, str(BUSY_INSTRUCTIONS)], "")[0] for _ in range(runs))
        print(f"hart_speed, {BUSY_INSTRUCTIONS} instructions: {least:.3f} s")


main(sys.argv[1:])
