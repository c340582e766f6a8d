#!/usr/bin/env python3
"""Makes words.txt anew: words of each of the 72 instructions, and words that are none, as GNU objdump prints them.

Run it from anywhere. It needs Debian's package binutils-mipsel-linux-gnu, which nothing that only compares does.
"""
import collections
import itertools
import math
import pathlib
import random
import re
import shutil
import struct
import subprocess
import sys
import tempfile

sys.dont_write_bytecode = True  # the import would leave a folder beside the sources
import compare

OBJDUMP, PACKAGE = "mipsel-linux-gnu-objdump", "binutils-mipsel-linux-gnu"
OPTIONS = ["-D", "-z", "-b", "binary", "-m", "mips:6000", "-EL", "-M", "gpr-names=numeric,cp0-names=numeric,no-aliases"]
BASE = 0x10000  # of cc100 list, and where nearly all words are
LARGEST_MODULE = 16384  # words
OF_EACH = 200  # words, where an instruction has so many
AT_EDGES = 40  # words for each of its fields, shared among the edges: SUB has rs 0 in 20 of them
NEAR_A_BORDER = 16  # words of each branch and jump
BRANCHES = ("beq", "bgez", "bgezal", "bgtz", "blez", "bltz", "bltzal", "bne", "j", "jal")
# Besides the edges of every number: of codes of 20 bits, what document 01 has an exit for and where objdump cuts them; of jumps, the first
# and last word of the largest module and the words beside them.
MORE_EDGES = {20: (15, 0x3FF, 0x400), 26: (0x3FFF, 0x4000, 0x7FFF, 0x8000)}
HEAD = """\
# What GNU objdump prints for words of the 72 instructions, and for words that are none of them.
# Made by tests/objdump/make.py; not to be edited. tests/objdump/README.md says what it is compared with.
#
# {version}
# {command}
#
# A line is a word: its address, the word, and the mnemonic and operands as objdump printed them. ADDRESS is 0x10000, and for the short
# modules at the end the address of their first word.
"""
Field = collections.namedtuple("Field", "letter lowest width")


def fields_of(e):
    return [Field(m[1], 32 - m.end(), len(m[0])) for m in re.finditer(r"([a-z])\1*", e.bits)]


def edges_of(field):
    """The values that a field has in any case."""
    if field.letter == "c":
        return compare.CONTROL
    if field.letter in "std":
        return (0, 31)
    if field.width == 5:  # shift amounts and stypes
        return tuple(range(32))
    half = 1 << field.width - 1
    return (0, 1, half - 1, half, 2 * half - 1) + MORE_EDGES.get(field.width, ())


def random_value(rng, field):
    return rng.choice(compare.CONTROL) if field.letter == "c" else rng.getrandbits(field.width)


def word_of(e, values):
    return e.fixed | sum(value << field.lowest for field, value in zip(fields_of(e), values))


def random_word(rng, e):
    return word_of(e, [random_value(rng, field) for field in fields_of(e)])


def words_of(rng, e):
    """Words of an instruction: all its fields at edges, then one at an edge and the others random, then all random."""
    fields = fields_of(e)
    made = [word_of(e, values) for values in itertools.product(*(edges_of(field) for field in fields))]
    for i, field in enumerate(fields):
        for value in edges_of(field) * (AT_EDGES // len(edges_of(field))):
            made.append(word_of(e, [value if j == i else random_value(rng, other) for j, other in enumerate(fields)]))
    made = dict.fromkeys(made)
    room = math.prod(len(compare.CONTROL) if field.letter == "c" else 1 << field.width for field in fields)
    while len(made) < min(OF_EACH, room):
        made[random_word(rng, e)] = None
    assert all(compare.name_of(word) == e.name for word in made), e.name
    return list(made)


def no_instructions(rng):
    """Words that are none of the 72, most of them by one field."""
    tried = []
    for e in compare.ENCODINGS:
        # each bit that is drawn as zero; opcodes and functions have their turn below
        lowest = 6 if e.bits.startswith("000000") else 0
        tried += [random_word(rng, e) | 1 << bit for bit in range(lowest, 26) if e.bits[31 - bit] == "0"]
    for i in range(64):
        tried += [i << 26 | rng.getrandbits(26), i << 26 | rng.getrandbits(26)]
        tried += [rng.getrandbits(20) << 6 | i, 0x42000000 | i]  # functions, and those beside RFE's
    for i in range(32):
        random_bits = rng.getrandbits(21)
        tried += [0x04000000 | random_bits >> 16 << 21 | i << 16 | random_bits & 0xFFFF, 0x40000000 | i << 21 | random_bits]
        tried += [e.fixed | rng.getrandbits(5) << 16 | i << 11 for e in compare.ENCODINGS if "c" in e.bits]
    return [word for word in dict.fromkeys(tried) if not compare.name_of(word)]


def modules(rng):
    """The modules, each with its address. J and JAL keep the top four bits of the slot's address, which are 0 at BASE: for each branch and
    jump a short module lies across a border where they change."""
    words = [word for e in compare.ENCODINGS for word in words_of(rng, e)]
    assert len(words) >= 12000, len(words)
    words += no_instructions(rng)
    rng.shuffle(words)  # so that the words of each branch have addresses all over the module
    assert len(words) <= LARGEST_MODULE, len(words)
    made = [(BASE, words)]
    for i, e in enumerate(e for e in compare.ENCODINGS if e.name in BRANCHES):
        made.append(((i + 1 << 28) - 2 * NEAR_A_BORDER, [random_word(rng, e) for _ in range(NEAR_A_BORDER)]))
    return made


def run(*arguments):
    done = subprocess.run([OBJDUMP, *arguments], stdout=subprocess.PIPE, stderr=subprocess.PIPE, encoding="utf-8")
    if done.returncode != 0:
        sys.exit("%s failed:\n%s" % (OBJDUMP, done.stderr))
    return done.stdout.splitlines()


def disassembled(address, words):
    """objdump's lines, with single spaces for its tabs."""
    with tempfile.TemporaryDirectory() as folder:
        path = pathlib.Path(folder, "words")
        path.write_bytes(struct.pack("<%dI" % len(words), *words))
        lines = run(*OPTIONS, "--adjust-vma=0x%x" % address, str(path))
    return [" ".join(line.split()) for line in lines if re.match(r" *[0-9a-f]+:\t", line)]


def make():
    made = modules(random.Random(100))
    head = HEAD.format(version=run("--version")[0], command=" ".join([OBJDUMP, *OPTIONS, "--adjust-vma=ADDRESS", "FILE"]))
    texts = ["\n" + "".join(line + "\n" for line in disassembled(*module)) for module in made]
    compare.WORDS.write_text(head + "".join(texts), encoding="utf-8")
    given = [(address + 4 * i, word) for address, words in made for i, word in enumerate(words)]
    assert [(line.address, line.word) for line in compare.stored()] == given, "objdump printed other words than it was given"
    none = sum(not compare.name_of(word) for _, word in given)
    print("%d words of the 72 instructions, %d that are none" % (len(given) - none, none))


if __name__ == "__main__":
    if shutil.which(OBJDUMP) is None:
        print("%s is not installed; Debian's package is %s" % (OBJDUMP, PACKAGE), file=sys.stderr)
        sys.exit(2)
    make()
