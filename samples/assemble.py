#!/usr/bin/env python3
"""Assembles a module for the layout of document 01's examples, and shows how a compiler writes guards.

    samples/assemble.py SOURCE > MODULE

A line has a label (a name and a colon), an instruction, or both; a comment goes from ; to the line's end. Instructions have the names of
document 004; registers and constants are numbers: ADD 8, 8, 2. The line after a branch or jump is its delay slot. A label is the target of
a branch or jump, or a constant: its place in the code. These forms become what the checker asks for:

    load.w T, OFFSET(R) table N   ANDI R,R,m and OR R,R,26 and LW T,OFFSET(R), in one bundle; all loads and stores are like this. R holds a place in
                                  a table of N bytes that begins OFFSET bytes into the data, and m is N - 4, the table's size less the width;
                                  without table N it is the whole data area
    return R                      ANDI R,R,m and OR R,R,27 and JR R, in one bundle; m is the code size - 16
    call LABEL                    JAL LABEL, where its return address begins a bundle: a guarded jump can reach no other words
    call.r R                      ANDI R,R,m and OR R,R,27 and JALR 31,R, where its return address begins a bundle
    bundle                        nothing, but what follows begins a bundle: for a label that a guarded jump is to reach
    straight                      as the last line: the last bundle of a straight-through module, SYSCALL 0, NOP, J to the SYSCALL and NOP, at the
                                  end of a power of two; a label before it is where that bundle starts, and branches can lead there

Mask and width together have to be a power of two, so that no two places of a table go to one cell: N is one, and where no mask fits, the
assembler says what is wrong. A cell at a place that is known is a table of its own, whose mask is 0: load.w T, 8(R) table 4.

Where a form does not fit into its bundle, NOPs stand before it. A module that does not end by itself with a jump and its slot at a power of
two is filled up with NOPs, and a jump to its first word. All other rules are left to the checker.
"""
import collections
import re
import struct
import sys

CODE_BASE = 0x10000  # J and JAL hold addresses
DATA_SIZE = "64"  # of the whole data area, as a source writes it
FIRST_WORD, LAST_BUNDLE, CODE_MASK = "first word", "last bundle", "code size - 16"  # labels that no source can have, for their spaces

# For each letter of the table below: the lowest bit of the operand's field, and its lowest and highest value.
FIELDS = {
    "s": (21, 0, 31), "t": (16, 0, 31), "d": (11, 0, 31), "h": (6, 0, 31), "c": (6, 0, 0xFFFFF),
    "i": (0, -0x8000, 0x7FFF), "u": (0, 0, 0xFFFF), "b": (0, -0x8000, 0x7FFF), "j": (0, 0, 0x3FFFFFF),
}
# The operands in the order in which they are written, and for each instruction the bits that are fixed.
TABLE = {
    "": {"NOP": 0}, "d": {"MFHI": 0x10, "MFLO": 0x12}, "c": {"SYSCALL": 0x0C, "BREAK": 0x0D},
    "dst": {"ADD": 0x20, "ADDU": 0x21, "SUB": 0x22, "SUBU": 0x23, "AND": 0x24, "OR": 0x25, "XOR": 0x26, "SLT": 0x2A, "SLTU": 0x2B},
    "dth": {"SLL": 0, "SRL": 2, "SRA": 3},
    "tsi": {"ADDI": 0x20000000, "ADDIU": 0x24000000, "SLTI": 0x28000000, "SLTIU": 0x2C000000},
    "tsu": {"ANDI": 0x30000000, "ORI": 0x34000000, "XORI": 0x38000000}, "tu": {"LUI": 0x3C000000},
    "st": {"MULT": 0x18, "DIV": 0x1A, "TGE": 0x30, "TGEU": 0x31, "TLT": 0x32, "TLTU": 0x33, "TEQ": 0x34, "TNE": 0x36},
    "stb": {"BEQ": 0x10000000, "BNE": 0x14000000},
    "sb": {"BLTZ": 0x04000000, "BGEZ": 0x04010000, "BLEZ": 0x18000000, "BGTZ": 0x1C000000},
    "j": {"J": 0x08000000, "JAL": 0x0C000000}, "s": {"JR": 0x08}, "ds": {"JALR": 0x09},
    "tis": {"LB": 0x80000000, "LH": 0x84000000, "LW": 0x8C000000, "LBU": 0x90000000, "LHU": 0x94000000, "SB": 0xA0000000, "SH": 0xA4000000,
            "SW": 0xAC000000},
}
INSTRUCTIONS = {name: (operands, bits) for operands, names in TABLE.items() for name, bits in names.items()}
JUMPS = {"J", "JAL", "JR", "JALR"}
BRANCHES = JUMPS | {name for name, (operands, _) in INSTRUCTIONS.items() if "b" in operands}
# The instruction of each form, and its width in bytes.
ACCESSES = {
    "load.b": ("LB", 1), "load.h": ("LH", 2), "load.w": ("LW", 4), "load.bu": ("LBU", 1), "load.hu": ("LHU", 2), "store.b": ("SB", 1),
    "store.h": ("SH", 2), "store.w": ("SW", 4),
}
Word = collections.namedtuple("Word", "line name operands")


def stop(line, text):
    sys.exit("assemble: %s, line %d: %s" % (sys.argv[1], line, text))


def guarded(r, mask, base, *access_or_jump):
    """The guard's AND keeps a place in the area, and its OR adds the area's base."""
    return [("ANDI", r, r, mask), ("OR", r, r, base), access_or_jump]


def power_of_two(number):
    return number & number - 1 == 0


def number_of(line, text):
    if not re.fullmatch(r"-?(0x[0-9A-Fa-f]+|[0-9]+)", text):
        stop(line, "%s is no number" % text)
    return int(text, 16 if "x" in text else 10)


def mask_of(line, width, offset, size):
    """The mask that keeps every place of a table, a multiple of the width: the table's size less the width."""
    begins, length, data = number_of(line, offset), number_of(line, size), int(DATA_SIZE)
    if length < width or not power_of_two(length):
        stop(line, "no mask fits a table of %s bytes: with a width of %d its size has to be a power of two, and at least %d" % (size, width, width))
    if begins < 0 or begins % width:
        stop(line, "no table for a width of %d can begin at %s: that has to be a multiple of %d, and not negative" % (width, offset, width))
    if begins + length > data:
        stop(line, "no mask fits: a table of %s bytes that begins at %s ends outside the data, which has %d bytes" % (size, offset, data))
    return str(length - width)


def plain(name):
    return lambda line, *operands: [(name, *operands)]


def access(name, width):
    return lambda line, t, offset, r, size=DATA_SIZE: guarded(r, mask_of(line, width, offset, size), "26", name, t, offset, r)


# What a line can begin with: the least and the most operands, where in a bundle its first word may stand, and the instructions that it becomes.
LINES = {
    **{name: (len(operands), len(operands), (0, 1, 2, 3), plain(name)) for name, (operands, _) in INSTRUCTIONS.items()},
    **{form: (3, 4, (0, 1), access(*instruction)) for form, instruction in ACCESSES.items()},
    "return": (1, 1, (0, 1), lambda line, r: guarded(r, CODE_MASK, "27", "JR", r)),
    "call": (1, 1, (2,), plain("JAL")),
    "call.r": (1, 1, (0,), lambda line, r: guarded(r, CODE_MASK, "27", "JALR", "31", r)),
    "bundle": (0, 0, (0,), lambda line: []),
    "straight": (0, 0, (0,), lambda line: [("SYSCALL", "0"), ("NOP",), ("J", LAST_BUNDLE), ("NOP",)]),
}


def add(words, labels, line, name, *operands):
    """Adds the words of a line. Labels that wait for a place get that of its first word, after the NOPs."""
    if name not in LINES:
        stop(line, "%s is no instruction and no form" % name)
    if LAST_BUNDLE in labels:
        stop(line, "nothing can follow straight")
    least, most, starts, become = LINES[name]
    if not least <= len(operands) <= most:
        stop(line, "%s has %d operands and needs %s" % (name, len(operands), least if least == most else "%d or %d" % (least, most)))
    instructions = become(line, *operands)
    if words and words[-1].name in BRANCHES and (len(instructions) != 1 or instructions[0][0] in BRANCHES):
        stop(line, "%s cannot stand in the delay slot of the branch or jump before it" % name)
    while len(words) % 4 not in starts or name == "straight" and not power_of_two(len(words) + 4):
        words.append(Word(line, "NOP", ()))
    if name == "straight":
        labels[LAST_BUNDLE] = None
    labels.update([(label, 4 * len(words)) for label in labels if labels[label] is None])
    words += [Word(line, first, rest) for first, *rest in instructions]


def fill_up(words, labels, line):
    size = 4
    while size < len(words):
        size *= 2
    if size > len(words) or words[-2].name not in JUMPS or None in labels.values():
        size *= 2 if size < len(words) + 2 else 1
        while len(words) < size - 2:
            add(words, labels, line, "NOP")
        add(words, labels, line, "J", FIRST_WORD)
        add(words, labels, line, "NOP")
    labels[CODE_MASK] = 4 * size - 16


def place(source):
    """The words of a source, and the places of its labels in the code."""
    words, labels, line = [], {FIRST_WORD: 0}, 0
    for line, text in enumerate(source, 1):
        label, rest = re.match(r"\s*(?:([A-Za-z_]\w*):)?([^;]*)", text).groups()
        if label in labels:
            stop(line, "the label %s is there twice" % label)
        if label:
            labels[label] = None
        parts = re.sub(r"[,()]|\btable\b", " ", rest).split()
        if parts:
            add(words, labels, line, *parts)
    fill_up(words, labels, line)
    return words, labels


def value(word, letter, text, here, labels):
    if letter in "bj" and text not in labels:
        stop(word.line, "there is no label %s" % text)
    if letter == "b":
        return (labels[text] - here - 4) // 4
    if letter == "j":
        return (CODE_BASE + labels[text]) // 4
    if letter in "iu" and text in labels:
        return labels[text]
    return number_of(word.line, text)


def encode(word, here, labels):
    letters, bits = INSTRUCTIONS[word.name]
    for letter, text in zip(letters, word.operands):
        shift, lowest, highest = FIELDS[letter]
        number = value(word, letter, text, here, labels)
        if not lowest <= number <= highest:
            stop(word.line, "%s is not from %d to %d" % (text, lowest, highest))
        bits |= (number & highest - lowest) << shift
    return bits


def main():
    if len(sys.argv) != 2:
        sys.exit("usage: assemble.py SOURCE > MODULE")
    try:
        with open(sys.argv[1], encoding="utf-8", errors="replace") as source:
            words, labels = place(source)
    except OSError as problem:
        sys.exit("assemble: cannot read %s: %s" % (sys.argv[1], problem.strerror))
    code = [encode(word, 4 * i, labels) for i, word in enumerate(words)]
    sys.stdout.buffer.write(struct.pack("<%dI" % len(code), *code))


if __name__ == "__main__":
    main()
