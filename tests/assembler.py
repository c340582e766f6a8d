#!/usr/bin/env python3
"""samples/assemble.py: the masks of its loads and stores, and what it says where none fits.

    tests/assembler.py CC100        from the project's folder; CC100 is the command

Which masks fit is worked out here by going through a table: the places of its cells are each of the multiples of the width below its size, so that a
guard keeps all of them, and no other place, where their bits together are the largest of them, and as many as there are such places.
"""
import random
import re
import struct
import subprocess
import sys

# The opcode and the width of each form, by document 004.
FORMS = {
    "load.b": (0x20, 1), "load.bu": (0x24, 1), "store.b": (0x28, 1), "load.h": (0x21, 2), "load.hu": (0x25, 2), "store.h": (0x29, 2),
    "load.w": (0x23, 4), "store.w": (0x2B, 4),
}
DATA = 64
SOURCE = "target/tests/assembler.asm"
MODULE = "target/tests/assembler.module"
REFUSED = 120  # lines without a mask that are tried, each in a source of its own

checks = failures = 0


def equal(what, expected, came):
    global checks, failures
    checks += 1
    if expected != came:
        failures += 1
        print("FAILED assembler: %s, expected %r, came %r" % (what, expected, came))


def assemble(lines):
    with open(SOURCE, "w", encoding="utf-8") as file:
        file.write("".join(line + "\n" for line in lines))
    return subprocess.run([sys.executable, "samples/assemble.py", SOURCE], capture_output=True, check=False)


def mask_of(width, offset, size):
    """The mask that keeps the places of a table's cells apart and makes no others, or None."""
    places = set(range(0, size, width))
    if not places or size % width or offset < 0 or offset % width or offset + size > DATA:
        return None
    mask = 0
    for place in places:
        mask |= place
    return mask if {place & mask for place in range(65536)} == places else None


def line_of(form, offset, size):
    return "%s 9, %d(8)%s" % (form, offset, "" if size is None else " table %d" % size)


def all_lines():
    """Forms, offsets and sizes; None is the whole data."""
    offsets = (-4, -1, 0, 1, 2, 3, 4, 6, 8, 12, 16, 20, 32, 33, 48, 56, 60, 62, 63, 64, 128)
    sizes = (None, -4, 0, 1, 2, 3, 4, 5, 6, 7, 8, 12, 15, 16, 24, 31, 32, 33, 48, 52, 56, 60, 63, 64, 65, 96, 128, 65536)
    return [(form, offset, size) for form in FORMS for offset in offsets for size in sizes]


def expect_words(lines, masks):
    """The three words of each line, in bundles of their own, and the checker's verdict on them all."""
    came = assemble([line_of(*line) for line in lines])
    equal("what is said of lines that fit", (0, b""), (came.returncode, came.stderr))
    words = struct.unpack("<%dI" % (len(came.stdout) // 4), came.stdout)
    for i, ((form, offset, size), mask) in enumerate(zip(lines, masks)):
        opcode, _ = FORMS[form]
        equal(line_of(form, offset, size), (0x31080000 | mask, 0x011A4025, opcode << 26 | 0x01090000 | offset), words[4 * i:4 * i + 3])
    with open(MODULE, "wb") as file:
        file.write(came.stdout)
    verdict = subprocess.run([sys.argv[1], "check", MODULE], capture_output=True, check=False)
    equal("the verdict", "accept %d\n" % len(words), verdict.stdout.decode())


def expected_message(width, offset, size):
    size_text = "%d" % (DATA if size is None else size)
    if mask_of(width, 0, min(int(size_text), DATA)) is None or int(size_text) & int(size_text) - 1:
        return "no mask fits a table of %s bytes: with a width of %d its size has to be a power of two, and at least %d" % (size_text, width, width)
    if offset < 0 or offset % width:
        return "no table for a width of %d can begin at %d: that has to be a multiple of %d, and not negative" % (width, offset, width)
    return "no mask fits: a table of %s bytes that begins at %d ends outside the data, which has %d bytes" % (size_text, offset, DATA)


def expect_refused(form, offset, size):
    came = assemble(["bundle ; nothing", line_of(form, offset, size)])
    said = "assemble: %s, line 2: %s\n" % (SOURCE, expected_message(FORMS[form][1], offset, size))
    equal(line_of(form, offset, size), (1, b"", said), (came.returncode, came.stdout, came.stderr.decode()))


def main():
    fitting, masks, others = [], [], []
    for line in all_lines():
        form, offset, size = line
        mask = mask_of(FORMS[form][1], offset, DATA if size is None else size)
        if mask is None:
            others.append(line)
        else:
            fitting.append(line)
            masks.append(mask)
    expect_words(fitting, masks)
    for line in random.Random(20261127).sample(others, REFUSED):
        expect_refused(*line)
    operands = re.escape("line 1: load.w has 5 operands and needs 3 or 4")
    equal("a mask in place of a table", True, re.search(operands, assemble(["load.w 9, 0(8) mask 60"]).stderr.decode()) is not None)
    print("assembler: %d lines with a mask, %d without; %d checks, %d failed" % (len(fitting), REFUSED, checks, failures))
    return failures != 0 or len(fitting) < 100


if __name__ == "__main__":
    sys.exit(main())
