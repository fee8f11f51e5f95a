#!/usr/bin/env python3
"""Compares the assembler and the listing with GNU binutils for RISC-V.

    tools/compare_with_binutils.py PROGRAM [COUNT [SEED]]

PROGRAM is the built program, as crates/emeralds/out/emeralds. COUNT statements of every kind (4,000 unless told) are made
at random from SEED (1 unless told), and assembled by `as -march=rv32i` and by `PROGRAM list`: the words must be the same.
Then our words, and as many made at random, are disassembled by `objdump -M numeric,no-aliases`: the texts must be the same
where both have one, when each is put into one form (`readable`, `ours`). Prints what was compared, and ends with status 1
where anything differs. Where the programs of Debian's package binutils-riscv64-unknown-elf are missing it says so, compares
nothing, and ends with status 0.
"""

import random
import re
import shutil
import subprocess
import sys
import tempfile
from pathlib import Path

AS = "riscv64-unknown-elf-as"
OBJCOPY = "riscv64-unknown-elf-objcopy"
OBJDUMP = "riscv64-unknown-elf-objdump"

# The table of the bundles whose code is listed.
TABLE = "%table\nhorizon = 1\n[[task]]\nname = 'a'\nentry = 'main'\nkind = 'background'\n"

# A bundle has at most 16,384 code words, and `li` and `waitjob` come to two.
CHUNK = 4000

NAMES = (
    ["x%d" % i for i in range(32)]
    + "zero ra sp gp tp t0 t1 t2 s0 s1 fp a0 a1 a2 a3 a4 a5 a6 a7".split()
    + "s2 s3 s4 s5 s6 s7 s8 s9 s10 s11 t3 t4 t5 t6".split()
)
OPERATIONS = "add sub sll slt sltu xor srl sra or and".split()
IMMEDIATES = "addi slti sltiu xori ori andi".split()
SHIFTS = "slli srli srai".split()
LOADS = "lb lh lw lbu lhu".split()
STORES = "sb sh sw".split()
BRANCHES = "beq bne blt bge bltu bgeu".split()
ALONE = "fence ecall ebreak nop ret".split()


def number(low, high):
    """A number of the range, often near one of its ends, in one of the spellings that both read."""
    n = random.choice([low, high, random.randint(low, high), max(low, min(high, random.randint(-9, 9)))])
    form = random.choice(["%d", "0x%x"])
    return "-" + form % -n if n < 0 else form % n


def even(low, high):
    return 2 * random.randint(low // 2, high // 2)


def value():
    """A number for `li`, often where it takes another form."""
    around = random.choice([0, 2048, -2048, 4096, 2**31, -(2**31), 2**32, 2**12 * random.randint(0, 2**20)])
    n = max(-(2**31), min(2**32 - 1, around + random.randint(-3, 3)))
    return n if random.random() < 0.7 else random.randint(-(2**31), 2**32 - 1)


def statement():
    """A statement in this project's assembly language, and the same for GNU as."""
    register = lambda: random.choice(NAMES)
    kind = random.choice(["op", "imm", "shift", "load", "store", "branch", "jal", "j", "jalr", "upper", "li", "mv", "alone", "waitjob", "code"])
    if kind == "op":
        return same("%s %s, %s, %s" % (random.choice(OPERATIONS), register(), register(), register()))
    if kind == "imm":
        return same("%s %s, %s, %s" % (random.choice(IMMEDIATES), register(), register(), number(-2048, 2047)))
    if kind == "shift":
        return same("%s %s, %s, %s" % (random.choice(SHIFTS), register(), register(), number(0, 31)))
    if kind in ("load", "store"):
        names = LOADS if kind == "load" else STORES
        return same("%s %s, %s(%s)" % (random.choice(names), register(), number(-2048, 2047), register()))
    if kind == "jalr":
        return same("jalr %s, %s(%s)" % (register(), number(-2048, 2047), register()))
    if kind == "branch":
        front = "%s %s, %s, " % (random.choice(BRANCHES), register(), register())
        return aimed(front, even(-4096, 4094))
    if kind == "jal":
        return aimed("jal %s, " % register(), even(-1048576, 1048574))
    if kind == "j":
        return aimed("j ", even(-1048576, 1048574))
    if kind == "upper":
        return same("%s %s, %s" % (random.choice(["lui", "auipc"]), register(), number(0, 1048575)))
    if kind == "li":
        # Into x0, GNU as puts an addition of 0 behind a `lui`; no program needs either.
        return same("li %s, %d" % (random.choice([name for name in NAMES if name not in ("x0", "zero")]), value()))
    if kind == "mv":
        return same("mv %s, %s" % (register(), register()))
    if kind == "alone":
        return same(random.choice(ALONE))
    if kind == "waitjob":
        # Its operand, a semaphore, is no part of the words, and isn't read yet.
        return "waitjob", "addi a7, zero, 1\necall"
    word = random.randint(0, 2**32 - 1)
    return ".code 0x%08x" % word, ".word 0x%08x" % word


def same(text):
    return text, text


def aimed(front, offset):
    """A target is an offset here, and an address in GNU as, where `.` is that of the statement itself."""
    return front + "%d" % offset, front + ".%+d" % offset


def labelled(statements):
    """Labels before some of the statements, and branches and jumps to them between the statements: the same for both."""
    ours, theirs = [], []
    for place, (our, their) in enumerate(statements):
        label = "L%d: " % place if place % 8 == 0 else ""
        ours.append(label + our)
        theirs.append(label + their)
        if place % 16 == 5:
            jump = random.choice(["beq a0, a1, ", "bgeu t0, zero, ", "j ", "jal ra, "])
            near = "L%d" % (8 * random.randint(max(0, place // 8 - 40), min((len(statements) - 1) // 8, place // 8 + 40)))
            ours.append(jump + near)
            theirs.append(jump + near)
    return ours, theirs


def run(words, **more):
    return subprocess.run(words, check=True, stdout=subprocess.PIPE, **more).stdout


def assembled(folder, lines):
    """The words that GNU as makes of the lines."""
    source, linked, raw = folder / "s.s", folder / "s.o", folder / "s.bin"
    source.write_text(".option norvc\n.option norelax\n" + "\n".join(lines) + "\n")
    run([AS, "-march=rv32i", "-mabi=ilp32", "-o", str(linked), str(source)])
    run([OBJCOPY, "-O", "binary", "-j", ".text", str(linked), str(raw)])
    data = raw.read_bytes()
    return [int.from_bytes(data[i : i + 4], "little") for i in range(0, len(data), 4)]


def listed(program, lines):
    """The lines of our listing: the address, the word and the text of each."""
    bundle = TABLE + "%code\nmain:\n" + "\n".join(lines) + "\n%script\n"
    text = run([program, "list"], input=bundle.encode()).decode()
    rows = [re.fullmatch(r"([0-9a-f]{8}): ([0-9a-f]{8}) (.*)", line) for line in text.splitlines()]
    return [(int(row[1], 16), int(row[2], 16), row[3]) for row in rows]


def disassembled(folder, words):
    """The texts that objdump has for the words."""
    raw = folder / "d.bin"
    raw.write_bytes(b"".join(word.to_bytes(4, "little") for word in words))
    text = run([OBJDUMP, "-b", "binary", "-m", "riscv:rv32", "-D", "-z", "-M", "numeric,no-aliases", str(raw)]).decode()
    rows = re.findall(r"^ *([0-9a-f]+):\t([0-9a-f]{8}) +\t(.*)$", text, re.M)
    return {int(address, 16): body for address, word, body in rows}


def readable(address, body):
    """The text of objdump in the form of ours: decimal numbers, offsets for addresses. None where that is no instruction of
    RV32I that ours has a text for: it names the sets of each fence, and the instructions of extensions."""
    body = re.sub(r" *[#<].*$", "", body).strip()
    name, _, rest = body.partition("\t")
    if name == "fence" and rest == "iorw,iorw":
        return "fence"
    known = OPERATIONS + IMMEDIATES + SHIFTS + LOADS + STORES + BRANCHES + "jal jalr lui auipc ecall ebreak".split()
    if name not in known:
        return None
    if not rest:
        return name
    operands = [re.sub(r"^0x[0-9a-f]+", lambda n: str(int(n[0], 16)), o) for o in rest.split(",")]
    if name in BRANCHES + ["jal"]:
        target = int(rest.split(",")[-1], 16)
        offset = (target - address + 2**31) % 2**32 - 2**31
        operands[-1] = str(offset)
    # objdump has a text for shifts by 32 and more, which RV32I reserves.
    if name in SHIFTS and int(operands[-1]) > 31:
        return None
    return name + " " + ", ".join(operands)


def compare_words(program, folder, count):
    """The words of GNU as and ours, of statements made at random."""
    statements = [statement() for _ in range(count)]
    ours, theirs = labelled(statements)
    expected, found = assembled(folder, theirs), listed(program, ours)
    if [address for address, _, _ in found] != list(range(0, 4 * len(found), 4)):
        print("the addresses don't count up by 4 from 0")
        return 1, []
    bad = abs(len(expected) - len(found))
    for want, (address, word, text) in zip(expected, found):
        if want != word:
            bad += 1
            print("at %d as has %08x and list %08x %s" % (address, want, word, text))
    return bad, [word for _, word, _ in found]


def compare_texts(program, folder, words):
    """The texts of objdump and ours, where both have an instruction; and what ours has none for."""
    theirs = disassembled(folder, words)
    bad = agreed = numbers = 0
    others = {}
    for address, word, text in listed(program, [".code 0x%08x" % word for word in words]):
        body = theirs[address]
        want = readable(address, body)
        if text == ".code 0x%08x" % word:
            numbers += 1
            others[body.split("\t")[0]] = others.get(body.split("\t")[0], 0) + 1
            bad += want is not None
        elif text == want:
            agreed += 1
        else:
            bad += 1
            print("at %d objdump has %r, in our form %r, and list %r" % (address, body, want, text))
    return bad, agreed, numbers, others


def near_instructions(count):
    """Words made at random, half of them with an opcode of RV32I."""
    opcodes = [0x37, 0x17, 0x6F, 0x67, 0x63, 0x03, 0x23, 0x13, 0x33, 0x0F, 0x73]
    words = []
    for _ in range(count):
        word = random.getrandbits(32)
        if random.random() < 0.9:
            word = word & ~0x7F | random.choice(opcodes)
        if random.random() < 0.5:
            word &= ~0xBE000000
        words.append(word)
    return words


def is_one_word(word):
    """objdump takes other words for two halves, or for the first part of something longer."""
    return word % 4 == 3 and word % 32 != 31


def main():
    if len(sys.argv) < 2:
        print(__doc__)
        return 2
    missing = [tool for tool in (AS, OBJCOPY, OBJDUMP) if not shutil.which(tool)]
    if missing:
        print("skipped: no %s here" % ", ".join(missing))
        return 0
    program = sys.argv[1]
    count = int(sys.argv[2]) if len(sys.argv) > 2 else 4000
    random.seed(int(sys.argv[3]) if len(sys.argv) > 3 else 1)
    bad = words_compared = agreed = numbers = 0
    others = {}
    with tempfile.TemporaryDirectory() as folder:
        for start in range(0, count, CHUNK):
            size = min(CHUNK, count - start)
            wrong, words = compare_words(program, Path(folder), size)
            bad += wrong
            words_compared += len(words)
            words = [word for word in words + near_instructions(size) if is_one_word(word)]
            wrong, same_texts, none, names = compare_texts(program, Path(folder), words)
            bad, agreed, numbers = bad + wrong, agreed + same_texts, numbers + none
            for name in names:
                others[name] = others.get(name, 0) + names[name]
    print("%d statements, %d words: %d texts agree, %d words have no text in list" % (count, words_compared, agreed, numbers))
    print("what objdump has for those: " + ", ".join("%s %d" % (n, others[n]) for n in sorted(others, key=lambda n: -others[n])))
    print("%d differ" % bad)
    return 1 if bad else 0


if __name__ == "__main__":
    sys.exit(main())
