"""cc100 explain: the text and the objects, for a module of each refusal, for accepted modules and for numbers alone.

Sentences are taken from `cc100 explain --number N --json`, which another subject compares with the documents; what stands around them is
given here.
"""
import functools
import json
import random
import re
import struct
import textwrap

from modules import DATA_SIZE, JUMP, MEMORY_LENGTH, image, module, straight_words, write_words
from program import DONE, REFUSED, equal, expect, run, write

WIDTH = 80
LAYOUT = ("memory_length", "code_base", "code_size", "data_base", "data_size")
ACCEPTED = ("Placed and started by cc100_start, it stays in its own code and data, and its run ends only in Integer Overflow, System Call, "
            "Breakpoint or Trap. That is proved of every module that is accepted.")

STRAIGHT = ("It is straight-through: its first exit comes after at most %d completed steps, four fewer than it has words. That is proved of every "
            "module that is accepted as such.")


@functools.lru_cache(maxsize=None)
def told(number):
    """All that is said of a number, by name."""
    return json.loads(run(["explain", "--number", str(number), "--json"]).out)


def wrapped(text):
    return textwrap.fill(text, WIDTH, break_long_words=False, break_on_hyphens=False) + "\n"


def layout_text(memory_length=MEMORY_LENGTH, code_base="0x10000", code_size=16, data_base="0x20000", data_size=DATA_SIZE):
    return "\nChecked for memory of %s bytes, %s bytes of code at %s,\n%s bytes of data at %s.\n" % (
        memory_length, code_size, code_base, data_size, data_base)


def refused_text(name, number, place, words, layout, finding=None):
    """What explain prints; words are the lines between the meaning and what is wrong or whom to ask, with an empty one before them."""
    said = told(number)
    at = "" if place is None else " at word %d" % place
    found = "" if finding is None else "\n" + wrapped("What is wrong here: " + finding)
    return ("%s is refused, number %d%s\n\n" % (name, number, at) + wrapped(said["meaning"]) + words + found + "\n"
            + wrapped("Whom to ask: " + said["ask"]) + "\n" + wrapped("What to do: " + said["change"]) + layout)


def expect_refused(arguments, name, number, place, words, layout, data=None, finding=None):
    expect(["explain"] + arguments + [name if name != "standard input" else "-"], REFUSED,
           refused_text(name, number, place, words, layout, finding), data=data)


# The layout of each, and what of it is printed: document 01's examples, and the limits beside them.
LAYOUTS = [
    (1, 32, ["--memory-length", "16777217"], {"memory_length": 16777217}),
    (1, 32, ["--memory-length", "0xFFFFFFFFFFFFFFFF"], {"memory_length": 2 ** 64 - 1}),
    (2, 24, [], {}),
    (2, 32, ["--code-size", "24"], {"code_size": 24}),
    (2, 0, [], {}),
    (2, 8, [], {}),
    (2, 65537, ["--code-size", "65537"], {"code_size": 65537}),
    (2, 65537, [], {"code_size": "at least 65537"}),
    (2, 65537, ["--code-size", "24"], {"code_size": 24}),
    (2, 32, ["--code-size", "0x20000"], {"code_size": 131072}),
    (3, 32, ["--data-size", "2"], {"data_size": 2}),
    (3, 32, ["--data-size", "0"], {"data_size": 0}),
    (3, 32, ["--data-size", "131072"], {"data_size": 131072}),
    (4, 32, ["--code-base", "0x10010"], {"code_base": "0x10010"}),
    (4, 32, ["--code-base", "0xFFFFFFE0"], {"code_base": "0xffffffe0"}),
    (5, 32, ["--data-base", "0x30000"], {"data_base": "0x30000"}),
    (5, 32, ["--data-base", "0xABCDE"], {"data_base": "0xabcde"}),
    (6, 32, ["--data-base", "0x10000"], {"data_base": "0x10000"}),
    (6, 32, ["--data-base", "0", "--code-base", "0"], {"data_base": "0x0", "code_base": "0x0"}),
    (7, 28, ["--code-size", "32"], {"code_size": 32}),
    (7, 16, ["--code-size", "0x20", "--memory-length", "0x30001"], {"code_size": 32, "memory_length": 196609}),
]


def test_layouts():
    for number, length, arguments, changed in LAYOUTS:
        name = write("tried.module", bytes(length))
        expect_refused(arguments, name, number, None, "", layout_text(**{"code_size": length, **changed}))


# A module of each refusal that names a word: its words, its length, the refusal, the place and the lines that show it.
FIRST_BUNDLE = """
       0  0x00010000  00000000    nop
       1  0x00010004  00000000    nop
       2  0x00010008  00000000    nop
       3  0x0001000c  00000000    nop
"""
M_BUNDLE = """
       0  0x00010000  3108003c  / andi    $8,$8,0x3c
       1  0x00010004  011a4025  | or      $8,$8,$26
       2  0x00010008  ad090000  \\ sw      $9,0($8)
       3  0x0001000c  0000000c    syscall
"""
M = [0x3108003C, 0x011A4025, 0xAD090000, 0x0000000C]
PLACES = [
    (8, 0, [0xFFFFFFFF], 16, """
-->    0  0x00010000  ffffffff    .word   0xffffffff
       1  0x00010004  00000000    nop
       2  0x00010008  08004000    j       0x10000  (word 0)
       3  0x0001000c  00000000    nop
"""),
    (8, 6, [0] * 6 + [1], 64, FIRST_BUNDLE + """
       4  0x00010010  00000000    nop
       5  0x00010014  00000000    nop
-->    6  0x00010018  00000001    .word   0x1
       7  0x0001001c  00000000    nop
"""),
    (8, 15, [0] * 14 + [JUMP, 0x70000000], 64, """
       8  0x00010020  00000000    nop
       9  0x00010024  00000000    nop
      10  0x00010028  00000000    nop
      11  0x0001002c  00000000    nop

      12  0x00010030  00000000    nop
      13  0x00010034  00000000    nop
      14  0x00010038  08004000    j       0x10000  (word 0)
-->   15  0x0001003c  70000000    .word   0x70000000
"""),
    (8, 16383, [0] * 16382 + [JUMP, 0xFFFFFFFF], 65536, """
   16376  0x0001ffe0  00000000    nop
   16377  0x0001ffe4  00000000    nop
   16378  0x0001ffe8  00000000    nop
   16379  0x0001ffec  00000000    nop

   16380  0x0001fff0  00000000    nop
   16381  0x0001fff4  00000000    nop
   16382  0x0001fff8  08004000    j       0x10000  (word 0)
-->16383  0x0001fffc  ffffffff    .word   0xffffffff
"""),
    # RFE after the bundle of M: the guard is taken, and marked
    (9, 4, M + [0x42000010], 32, M_BUNDLE + """
-->    4  0x00010010  42000010    rfe
       5  0x00010014  00000000    nop
       6  0x00010018  08004000    j       0x10000  (word 0)
       7  0x0001001c  00000000    nop
"""),
    # BREAK 15, MFC0 and MTC0
    (9, 1, [0, 0x000003CD], 16, """
       0  0x00010000  00000000    nop
-->    1  0x00010004  000003cd    break   0xf
       2  0x00010008  08004000    j       0x10000  (word 0)
       3  0x0001000c  00000000    nop
"""),
    (9, 0, [0x40036000, 0x40836000], 16, """
-->    0  0x00010000  40036000    mfc0    $3,$12
       1  0x00010004  40836000    mtc0    $3,$12
       2  0x00010008  08004000    j       0x10000  (word 0)
       3  0x0001000c  00000000    nop
"""),
    (10, 0, [0x3C1A0000], 16, """
-->    0  0x00010000  3c1a0000    lui     $26,0x0
       1  0x00010004  00000000    nop
       2  0x00010008  08004000    j       0x10000  (word 0)
       3  0x0001000c  00000000    nop
"""),
    # an access with a guard that would fit, but what it loads goes into register 27
    (10, 2, [0x3108003C, 0x011A4025, 0x8D1B0000, 0x0000000C], 32, """
       0  0x00010000  3108003c    andi    $8,$8,0x3c
       1  0x00010004  011a4025    or      $8,$8,$26
-->    2  0x00010008  8d1b0000    lw      $27,0($8)
       3  0x0001000c  0000000c    syscall
"""),
    # BGEZAL with rs = 31, whose target is its slot
    (11, 0, [0x07F10000], 16, """
-->    0  0x00010000  07f10000    bgezal  $31,0x10004  (word 1)
       1  0x00010004  00000000    nop
       2  0x00010008  08004000    j       0x10000  (word 0)
       3  0x0001000c  00000000    nop
"""),
    (11, 1, [0, 0x00A02809], 16, """
       0  0x00010000  00000000    nop
-->    1  0x00010004  00a02809    jalr    $5,$5
       2  0x00010008  08004000    j       0x10000  (word 0)
       3  0x0001000c  00000000    nop
"""),
    (13, 0, [0x03E00008], 16, """
-->    0  0x00010000  03e00008    jr      $31
       1  0x00010004  00000000    nop
       2  0x00010008  08004000    j       0x10000  (word 0)
       3  0x0001000c  00000000    nop
"""),
    # a mask of 0x20 in a code area of 32 bytes, of which 16 is the largest
    (13, 3, [0, 0x30A50020, 0x00BB2825, 0x00A00009], 32, """
       0  0x00010000  00000000    nop
       1  0x00010004  30a50020    andi    $5,$5,0x20
       2  0x00010008  00bb2825    or      $5,$5,$27
-->    3  0x0001000c  00a00009    jalr    $0,$5
"""),
    (14, 1, [JUMP, JUMP], 16, """
       0  0x00010000  08004000    j       0x10000  (word 0)
-->    1  0x00010004  08004000    j       0x10000  (word 0)
       2  0x00010008  08004000    j       0x10000  (word 0)
       3  0x0001000c  00000000    nop
"""),
    # also in the next bundle; the second branch leads outside as well, but 14 comes before 15
    (14, 4, [0, 0, 0, 0x10000000, 0x10007FFF], 32, """
       0  0x00010000  00000000    nop
       1  0x00010004  00000000    nop
       2  0x00010008  00000000    nop
       3  0x0001000c  10000000    beq     $0,$0,0x10010  (word 4)

-->    4  0x00010010  10007fff    beq     $0,$0,0x30010  (outside the module)
       5  0x00010014  00000000    nop
       6  0x00010018  08004000    j       0x10000  (word 0)
       7  0x0001001c  00000000    nop
"""),
    # where a branch leads is shown for 15 only
    (14, 1, [JUMP, 0x1000000A], 64, """
       0  0x00010000  08004000    j       0x10000  (word 0)
-->    1  0x00010004  1000000a    beq     $0,$0,0x10030  (word 12)
       2  0x00010008  00000000    nop
       3  0x0001000c  00000000    nop
"""),
    (16, 6, [0] * 8, 32, FIRST_BUNDLE + """
       4  0x00010010  00000000    nop
       5  0x00010014  00000000    nop
-->    6  0x00010018  00000000    nop
       7  0x0001001c  00000000    nop
"""),
    # a branch that is always taken does not do: from the slot, word 15, by -15 words
    (16, 14, [0] * 14 + [0x1000FFF1, 0], 64, """
       8  0x00010020  00000000    nop
       9  0x00010024  00000000    nop
      10  0x00010028  00000000    nop
      11  0x0001002c  00000000    nop

      12  0x00010030  00000000    nop
      13  0x00010034  00000000    nop
-->   14  0x00010038  1000fff1    beq     $0,$0,0x10000  (word 0)
      15  0x0001003c  00000000    nop
"""),
    (16, 2, [0, 0, 0x1000FFFD, 0], 16, """
       0  0x00010000  00000000    nop
       1  0x00010004  00000000    nop
-->    2  0x00010008  1000fffd    beq     $0,$0,0x10000  (word 0)
       3  0x0001000c  00000000    nop
"""),
]


def test_places():
    for number, place, words, length, lines in PLACES:
        expect_refused([], module(words, length), number, place, lines, layout_text(code_size=length))


# Refusals 12, 22 and 25: the place, the four words of a bundle, what is wrong with them, and the words that take their place where it is mended as
# the text says, None where that is another bundle.
ANDI, OR, SW = 0x31080000, 0x011A4025, 0xAD090000  # ANDI 8,8,0; OR 8,8,26; SW 9,0(8); with a mask and an offset put in
FIRST, SECOND = "The %s at word %d is the first word of its bundle", "The %s at word %d is the second word of its bundle"
NO_ROOM = ", and two words of a guard have no room before it there. To mend: put andi $8,S,m and or $8,$8,$26 and the %s into one bundle."
BASE_8 = "The base of the sw at word 2 is register 8. "
BOTH = " To mend: put the two words before it, in the same bundle."
ONE = " To mend: change that word."
NO_GUARD = "The base of the %s at word 2 is register %d, which no guard can be of. To mend: take another register R as the base, with andi " \
    "R,S,m and or R,R,$26 before it."
GUARDS = [
    (12, 0, [SW], FIRST % ("sw", 0) + NO_ROOM % "sw", None),
    (12, 1, [0, 0xC1090000], SECOND % ("ll", 1) + NO_ROOM % "ll", None),
    (12, 2, [0, 0, SW], BASE_8 + "Word 0 is nop and must be andi $8,S,m. Word 1 is nop and must be or $8,$8,$26." + BOTH, [ANDI, OR, SW]),
    (12, 3, [ANDI | 0x3C, OR, 0, SW], "The base of the sw at word 3 is register 8. Word 1 is or $8,$8,$26 and must be andi $8,S,m. Word 2 is nop "
     "and must be or $8,$8,$26." + BOTH, [0, ANDI | 0x3C, OR, SW]),
    (12, 2, [0x3508003C, OR, SW], BASE_8 + "Word 0 is ori $8,$8,0x3c and must be andi $8,S,m." + ONE, [ANDI | 0x3C, OR, SW]),
    (12, 2, [0x3109003F, OR, SW | 2], BASE_8 + "Word 0 is andi $9,$8,0x3f and must be andi $8,S,m." + ONE, [ANDI | 0x1C, OR, SW | 4]),
    (12, 2, [ANDI | 0x3C, 0x011A4021, SW], BASE_8 + "Word 1 is addu $8,$8,$26 and must be or $8,$8,$26." + ONE, [ANDI | 0x3C, OR, SW]),
    (12, 2, [ANDI | 0x3C, 0x03484025, SW], BASE_8 + "Word 1 is or $8,$26,$8 and must be or $8,$8,$26." + ONE, [ANDI | 0x3C, OR, SW]),
    (12, 2, [ANDI | 0x3F, 0x011B4025, SW], BASE_8 + "Word 1 is or $8,$8,$27 and must be or $8,$8,$26." + ONE, [ANDI | 0x3C, OR, SW]),
    (12, 2, [ANDI | 0x3C, 0x011A4825, SW], BASE_8 + "Word 1 is or $9,$8,$26 and must be or $8,$8,$26." + ONE, [ANDI | 0x3C, OR, SW]),
    (12, 2, [0x3109003C, 0x013A4825, SW], "Words 0 and 1 are a guard of register 9, and the base of the sw at word 2 is register 8. To mend: make "
     "them andi $8,S,m and or $8,$8,$26, or make $9 the base.", [0x3109003C, 0x013A4825, 0xAD290000]),
    (12, 2, [ANDI | 0x3C, OR, 0xAD290000], "Words 0 and 1 are a guard of register 8, and the base of the sw at word 2 is register 9. To mend: make "
     "them andi $9,S,m and or $9,$9,$26, or make $8 the base.", [0x3109003C, 0x013A4825, 0xAD290000]),
    (12, 2, [ANDI | 0x3C, OR, 0xAF490000], NO_GUARD % ("sw", 26), None),
    (12, 2, [ANDI | 0x3C, OR, 0x8F690000], NO_GUARD % ("lw", 27), None),
    (12, 2, [0x3100003C, 0x001A0025, 0x80090000], NO_GUARD % ("lb", 0), None),
    (22, 0, [ANDI | 0x3F, OR, SW], "Word 0, with the mask 0x3f, guards the sw at word 2, with the offset 0 and a width of 4. The mask is no multiple "
     "of 4. Mask, offset and width are 63 + 0 + 4 = 67, and the data has 64 bytes. To mend: make the mask of word 0 a power of two less 4, at most "
     "0x3c.", [ANDI | 0x3C, OR, SW]),
    # the mask has a hole too, with which no data size would do
    (22, 0, [ANDI | 0x40, OR, SW], "Word 0, with the mask 0x40, guards the sw at word 2, with the offset 0 and a width of 4. Mask, offset and width "
     "are 64 + 0 + 4 = 68, and the data has 64 bytes. The mask has a hole too, which is refused by 25. To mend: make the mask of word 0 a power of "
     "two less 4, at most 0x3c.", [ANDI | 0x3C, OR, SW]),
    (22, 0, [ANDI | 0x34, OR, SW | 0xC], "Word 0, with the mask 0x34, guards the sw at word 2, with the offset 12 and a width of 4. Mask, offset and "
     "width are 52 + 12 + 4 = 68, and the data has 64 bytes. The mask has a hole too, which is refused by 25. To mend: make the mask of word 0 a "
     "power of two less 4, at most 0x1c.", [ANDI | 0x1C, OR, SW | 0xC]),
    (22, 0, [ANDI | 0x2A, OR, SW | 8], "Word 0, with the mask 0x2a, guards the sw at word 2, with the offset 8 and a width of 4. The mask is no "
     "multiple of 4. To mend: make the mask of word 0 a power of two less 4, at most 0x1c.", [ANDI | 0x1C, OR, SW | 8]),
    (22, 1, [0, ANDI | 0x1E, OR, 0xA5090003], "Word 1, with the mask 0x1e, guards the sh at word 3, with the offset 3 and a width of 2. The offset "
     "is no multiple of 2. To mend: make the offset of word 3 a multiple of 2, at most 0x20 and not negative.",
     [0, ANDI | 0x1E, OR, 0xA5090020]),
    (22, 1, [0, ANDI | 0x30, OR, 0xA5090003], "Word 1, with the mask 0x30, guards the sh at word 3, with the offset 3 and a width of 2. The offset "
     "is no multiple of 2. The mask has a hole too, which is refused by 25. To mend: change both, so that the mask is a power of two less 2, the "
     "offset not negative and a multiple of 2, and the three are at most 64.", [0, ANDI | 0x1E, OR, 0xA5090020]),
    (22, 0, [ANDI | 0x3C, OR, SW | 0xFFFC], "Word 0, with the mask 0x3c, guards the sw at word 2, with the offset -4 and a width of 4. The offset is "
     "negative. To mend: make the offset of word 2 a multiple of 4, at most 0x0 and not negative.", [ANDI | 0x3C, OR, SW]),
    (22, 0, [ANDI | 0x1F, OR, 0x8109FFFF], "Word 0, with the mask 0x1f, guards the lb at word 2, with the offset -1 and a width of 1. The offset is "
     "negative. To mend: make the offset of word 2 at most 0x20 and not negative.", [ANDI | 0x1F, OR, 0x81090020]),
    (22, 0, [ANDI | 0x3F, OR, 0x91090001], "Word 0, with the mask 0x3f, guards the lbu at word 2, with the offset 1 and a width of 1. Mask, offset "
     "and width are 63 + 1 + 1 = 65, and the data has 64 bytes. To mend: make the mask of word 0 a power of two less 1, at most 0x1f. With a data "
     "size of 128 it would fit as it is.", [ANDI | 0x1F, OR, 0x91090001]),
    (22, 0, [ANDI | 0x3F, OR, 0xE109FFFE], "Word 0, with the mask 0x3f, guards the sc at word 2, with the offset -2 and a width of 4. The mask is no "
     "multiple of 4. The offset is no multiple of 4. The offset is negative. Mask, offset and width are 63 - 2 + 4 = 65, and the data has 64 "
     "bytes. To mend: change both, so that the mask is a power of two less 4, the offset not negative and a multiple of 4, and the three are at most "
     "64.", [ANDI | 0x1C, OR, 0xE1090020]),
    (22, 0, [ANDI | 0xFFFF, OR, 0x81097FFF], "Word 0, with the mask 0xffff, guards the lb at word 2, with the offset 32767 and a width of 1. Mask, "
     "offset and width are 65535 + 32767 + 1 = 98303, and the data has 64 bytes. To mend: change both, so that the mask is a power of two less 1, "
     "the offset not negative, and the three are at most 64.", [ANDI | 0x1F, OR, 0x81090020]),
    (25, 0, [ANDI | 0x34, OR, SW], "Word 0, with the mask 0x34, guards the sw at word 2, with the offset 0 and a width of 4. Mask and width are 52 + "
     "4 = 56, which is 111000 in binary, with 3 ones, and a power of two has one. The mask is 110100 and leaves 0x8 out of a place, so that the "
     "places 0x0 and 0x8 go to one cell, and two rows can too. To mend: make the mask of word 0 0x1c, or 0x3c, which leaves nothing out and fits "
     "the data.", [ANDI | 0x3C, OR, SW]),
    (25, 1, [0, ANDI | 0x30, OR, 0x8D09000C], "Word 1, with the mask 0x30, guards the lw at word 3, with the offset 12 and a width of 4. Mask and "
     "width are 48 + 4 = 52, which is 110100 in binary, with 3 ones, and a power of two has one. The mask is 110000 and leaves 0xc out of a place, "
     "so that the places 0x0 and 0x4 go to one cell, and two rows can too. To mend: make the mask of word 1 0x1c. With this offset 0x3c, which "
     "leaves nothing out, does not fit the data.", [0, ANDI | 0x1C, OR, 0x8D09000C]),
    (25, 0, [ANDI | 0x3E, OR, 0x81090000], "Word 0, with the mask 0x3e, guards the lb at word 2, with the offset 0 and a width of 1. Mask and width "
     "are 62 + 1 = 63, which is 111111 in binary, with 6 ones, and a power of two has one. The mask is 111110 and leaves 0x1 out of a place, so that "
     "the places 0x0 and 0x1 go to one cell, and two rows can too. To mend: make the mask of word 0 0x1f, or 0x3f, which leaves nothing out and "
     "fits the data.", [ANDI | 0x1F, OR, 0x81090000]),
    (25, 0, [ANDI | 0x3C, OR, 0xA5090002], "Word 0, with the mask 0x3c, guards the sh at word 2, with the offset 2 and a width of 2. Mask and width "
     "are 60 + 2 = 62, which is 111110 in binary, with 5 ones, and a power of two has one. The mask is 111100 and leaves 0x2 out of a place, so that "
     "the places 0x0 and 0x2 go to one cell, and two rows can too. To mend: make the mask of word 0 0x1e. With this offset 0x3e, which leaves "
     "nothing out, does not fit the data.", [ANDI | 0x1E, OR, 0xA5090002]),
    (25, 0, [ANDI | 8, OR, 0xE1090030], "Word 0, with the mask 0x8, guards the sc at word 2, with the offset 48 and a width of 4. Mask and width are "
     "8 + 4 = 12, which is 1100 in binary, with 2 ones, and a power of two has one. The mask is 1000 and leaves 0x4 out of a place, so that the "
     "places 0x0 and 0x4 go to one cell, and two rows can too. To mend: make the mask of word 0 0x4, or 0xc, which leaves nothing out and fits the "
     "data.", [ANDI | 0xC, OR, 0xE1090030]),
]


def text_of(word):
    """The text of a word that explain shows, by the listing of a module of it; addresses are those of a first word."""
    line = run(["list", module([word], 16, "listed.module")]).out.decode().split("\n")[0]
    return line[31:]


def lines_of(words, place):
    """The lines of a first bundle, with an arrow, as a listing has each word by itself."""
    return "\n" + "".join("%s%5d  0x%08x  %08x    %s\n" % ("-->" if i == place else "   ", i, 0x10000 + 4 * i, word, text_of(word))
                          for i, word in enumerate(words))


def test_guards():
    """12, 22 and 25 with what is wrong and what to mend, as text and as an object; and mended so the module is accepted."""
    for number, place, words, finding, mended in GUARDS:
        whole = list(struct.unpack("<8I", image(words, 32)))
        lines, name = lines_of(whole[:4], place), module(words, 32)
        expect_refused([], name, number, place, lines, layout_text(code_size=32), finding=finding)
        said = told(number)
        expect_object(["explain", "--json", name], REFUSED, {
            "file": name, "verdict": "refuse", "number": number, "place": place, "meaning": said["meaning"], "ask": said["ask"],
            "change": said["change"], "finding": finding, "around": around_of(lines, whole), **layout_object(code_size=32)})
        if mended:
            expect(["check", module(mended, 32)], DONE, "accept 8\n")
    # the guard begins in the bundle before
    for moved, which in ((2, FIRST), (3, SECOND)):
        words = [0] * moved + [ANDI | 0x3C, OR, SW]
        came = json.loads(run(["explain", "--json", module(words, 32)]).out)
        equal(["explain", "--json"], "a guard that is split", which % ("sw", moved + 2) + ", and two words of a guard have no room before it there. "
              "Its guard, words %d and %d, begins in the bundle before. To mend: put andi $8,S,m and or $8,$8,$26 and the sw into one bundle."
              % (moved, moved + 1), came["finding"])


def with_number(words, at, number):
    """The words with another constant in one of them."""
    return [word & 0xFFFF0000 | number if i == at else word for i, word in enumerate(words)]


def width_of(finding):
    return int(re.search(r"width of (\d)", finding).group(1))


def as_told(words, finding):
    """Mends the three words as the text of 22 says: each number as large as it may be. Gives also what is one step too large, and what was mended."""
    width = width_of(finding)
    mask = re.search(r"make the mask of word 0 a power of two less %d, at most 0x([0-9a-f]+)\." % width, finding)
    offset = re.search(r"make the offset of word 2 (?:a multiple of \d, )?at most 0x([0-9a-f]+) and not negative", finding)
    if mask:
        most = int(mask.group(1), 16)
        return with_number(words, 0, most), with_number(words, 0, 2 * most + width), "mask"
    if offset:
        most = int(offset.group(1), 16)
        return with_number(words, 2, most), with_number(words, 2, most + width), "offset"
    whole = with_number(words, 0, 32 - width)
    return with_number(whole, 2, 32), with_number(whole, 2, 32 + width), "both"


def random_numbers(r):
    """A guard and its access, often with a mask or an offset that is wrong."""
    width, opcode = r.choice([(1, 0x24), (2, 0x29), (4, 0x23), (4, 0x38)])
    whole = (4 << r.randrange(7)) - width
    mask = r.choice([r.randrange(0x50), r.randrange(0x10) * width, whole, whole, 64, r.getrandbits(16)])
    offset = r.choice([0, 0, width * r.randrange(16), r.randrange(16), 64 - width - mask & 0xFFFF, -width * r.randrange(1, 4) & 0xFFFF,
                       r.getrandbits(16)])
    return [ANDI | mask, OR, opcode << 26 | 0x01090000 | offset]


def verdict_of(words, *options):
    return run(["check", *options, module(words, 32)]).out.decode()


def follow_22(words, finding):
    """Mended as told the module is accepted, and one step further it is not; and so with the data size. Gives what was mended."""
    mended, too_large, what = as_told(words, finding)
    equal(["check"], "the verdict on what is mended as told", "accept 8\n", verdict_of(mended))
    equal(["check"], "the verdict one step further", "refuse 22 0\n", verdict_of(too_large))
    size = re.search(r"With a data size of (\d+) it would fit", finding)
    if not size:
        return {what}
    equal(["check"], "the verdict with the data size", "accept 8\n", verdict_of(words, "--data-size", size.group(1)))
    equal(["check"], "the verdict with half of it", "refuse 22 0\n", verdict_of(words, "--data-size", "%d" % (int(size.group(1)) // 2)))
    return {what, "size"}


def follow_25(words, finding):
    """With each mask that is told the module is accepted, and with one that does not fit it is not. No mask between the two has no hole. The two
    places go to one cell, and the bits are those of the sum and of the mask. Gives what was told."""
    width, mask = width_of(finding), words[0] & 0xFFFF
    below = int(re.search(r"make the mask of word 0 0x([0-9a-f]+)", finding).group(1), 16)
    above, end = re.search(r" 0x([0-9a-f]+), which leaves nothing out(, does not fit the data\.| and fits the data\.)$", finding).groups()
    fits, above = "and fits" in end, int(above, 16)
    equal(["check"], "the verdict with the mask below", "accept 8\n", verdict_of(with_number(words, 0, below)))
    equal(["check"], "the verdict with the mask above", "accept 8\n" if fits else "refuse 22 0\n", verdict_of(with_number(words, 0, above)))
    equal(["explain"], "the masks beside it", (True, True), (below < mask < above, above + width == 2 * (below + width)))
    left_out, first, second = (int(text, 16) for text in re.search(
        r"leaves 0x([0-9a-f]+) out of a place, so that the places 0x([0-9a-f]+) and 0x([0-9a-f]+) go to one cell", finding).groups())
    equal(["explain"], "two places", (True, first & mask), (first != second, second & mask))
    equal(["explain"], "what is left out", above, mask | left_out)
    binary = re.search(r"which is ([01]+) in binary, with (\d+) ones, and a power of two has one\. The mask is ([01]+) ", finding).groups()
    equal(["explain"], "the bits", (bin(mask + width)[2:], "%d" % bin(mask + width).count("1"), bin(mask)[2:]), binary)
    return {"a mask above" if fits else "no mask above"}


def test_advice():
    """Random guards with wrong numbers, mended as told."""
    r, met = random.Random(20261127), set()
    for _ in range(200):
        words = random_numbers(r)
        came = json.loads(run(["explain", "--json", module(words, 32)]).out)
        if came["verdict"] == "refuse":
            met |= (follow_25 if came["number"] == 25 else follow_22)(words, came["finding"])
    equal(["explain", "--json"], "what was to be mended", {"mask", "offset", "both", "size", "a mask above", "no mask above"}, met)


# Refusal 15. Where the branch leads is shown with the word after it, unless both are among the lines already.
TARGETS = [
    # to the last word, which is shown and has none after it: document 01's C12 with its example
    (6, M + [0, 0, 0x08004007, 0], 32, M_BUNDLE + """
       4  0x00010010  00000000    nop
       5  0x00010014  00000000    nop
-->    6  0x00010018  08004007    j       0x1001c  (word 7)
       7  0x0001001c  00000000    nop
"""),
    # to the word just before an access, both of them shown: C12
    (6, M + [0, 0, 0x08004001, 0], 32, M_BUNDLE + """
       4  0x00010010  00000000    nop
       5  0x00010014  00000000    nop
-->    6  0x00010018  08004001    j       0x10004  (word 1)
       7  0x0001001c  00000000    nop
"""),
    # to an access with its guard, further on: BNE at word 1 by 8 words from its slot
    (1, [0, 0x14A00008, 0, 0, 0, 0, 0, 0, 0x3108003C, 0x011A4025, 0xAD090000], 64, """
       0  0x00010000  00000000    nop
-->    1  0x00010004  14a00008    bne     $5,$0,0x10028  (word 10)
       2  0x00010008  00000000    nop
       3  0x0001000c  00000000    nop

It leads to word 10:

       8  0x00010020  3108003c  / andi    $8,$8,0x3c
       9  0x00010024  011a4025  | or      $8,$8,$26
      10  0x00010028  ad090000  \\ sw      $9,0($8)
      11  0x0001002c  00000000    nop
"""),
    # to an access, backwards: JAL at word 12 to word 2, where bundles 2 and 3 are shown
    (12, M + [0] * 8 + [0x0C004002], 64, """
       8  0x00010020  00000000    nop
       9  0x00010024  00000000    nop
      10  0x00010028  00000000    nop
      11  0x0001002c  00000000    nop

-->   12  0x00010030  0c004002    jal     0x10008  (word 2)
      13  0x00010034  00000000    nop
      14  0x00010038  08004000    j       0x10000  (word 0)
      15  0x0001003c  00000000    nop

It leads to word 2:
""" + M_BUNDLE),
    # to the last word of a bundle, just before an access in the next one: both bundles are shown
    (0, [0x0800400B] + [0] * 11 + [0xAD090000], 64, """
-->    0  0x00010000  0800400b    j       0x1002c  (word 11)
       1  0x00010004  00000000    nop
       2  0x00010008  00000000    nop
       3  0x0001000c  00000000    nop

It leads to word 11:

       8  0x00010020  00000000    nop
       9  0x00010024  00000000    nop
      10  0x00010028  00000000    nop
      11  0x0001002c  00000000    nop

      12  0x00010030  ad090000    sw      $9,0($8)
      13  0x00010034  00000000    nop
      14  0x00010038  08004000    j       0x10000  (word 0)
      15  0x0001003c  00000000    nop
"""),
    # the target is among the lines, and the access after it is not: the branch is shown twice, with its arrow
    (0, [0x08004003, 0, 0, 0, 0xAD090000], 32, """
-->    0  0x00010000  08004003    j       0x1000c  (word 3)
       1  0x00010004  00000000    nop
       2  0x00010008  00000000    nop
       3  0x0001000c  00000000    nop

It leads to word 3:

-->    0  0x00010000  08004003    j       0x1000c  (word 3)
       1  0x00010004  00000000    nop
       2  0x00010008  00000000    nop
       3  0x0001000c  00000000    nop

       4  0x00010010  ad090000    sw      $9,0($8)
       5  0x00010014  00000000    nop
       6  0x00010018  08004000    j       0x10000  (word 0)
       7  0x0001001c  00000000    nop
"""),
    # to the last word, which is not among the lines
    (2, [0, 0, 0x0800400F], 64, """
       0  0x00010000  00000000    nop
       1  0x00010004  00000000    nop
-->    2  0x00010008  0800400f    j       0x1003c  (word 15)
       3  0x0001000c  00000000    nop

It leads to word 15:

      12  0x00010030  00000000    nop
      13  0x00010034  00000000    nop
      14  0x00010038  08004000    j       0x10000  (word 0)
      15  0x0001003c  00000000    nop
"""),
    # to the word before the last but one, where that is JR: the target's bundle alone, since the word after it is in it
    (0, [0x0800400D] + [0] * 11 + [0x30A50030, 0x00BB2825, 0x00A00008, 0], 64, """
-->    0  0x00010000  0800400d    j       0x10034  (word 13)
       1  0x00010004  00000000    nop
       2  0x00010008  00000000    nop
       3  0x0001000c  00000000    nop

It leads to word 13:

      12  0x00010030  30a50030  / andi    $5,$5,0x30
      13  0x00010034  00bb2825  | or      $5,$5,$27
      14  0x00010038  00a00008  \\ jr      $5
      15  0x0001003c  00000000    nop
"""),
    # outside: before the code, just past its end, and far from it
    (1, [0, 0x1000FFFD], 16, """
       0  0x00010000  00000000    nop
-->    1  0x00010004  1000fffd    beq     $0,$0,0xfffc  (outside the module)
       2  0x00010008  08004000    j       0x10000  (word 0)
       3  0x0001000c  00000000    nop
"""),
    (0, [0x04110003], 16, """
-->    0  0x00010000  04110003    bgezal  $0,0x10010  (outside the module)
       1  0x00010004  00000000    nop
       2  0x00010008  08004000    j       0x10000  (word 0)
       3  0x0001000c  00000000    nop
"""),
    (4, [0, 0, 0, 0, 0x0BFFFFFF], 32, FIRST_BUNDLE + """
-->    4  0x00010010  0bffffff    j       0xffffffc  (outside the module)
       5  0x00010014  00000000    nop
       6  0x00010018  08004000    j       0x10000  (word 0)
       7  0x0001001c  00000000    nop
"""),
]


def test_targets():
    for place, words, length, lines in TARGETS:
        expect_refused([], module(words, length), 15, place, lines, layout_text(code_size=length))


# Refusals of straight-through modules. Where a branch leads is shown as for 15; 21 names no word, and the last bundle is shown without an arrow.
ENDS = """
      12  0x00010030  0000000c    syscall
      13  0x00010034  00000000    nop
      14  0x00010038  0800400c    j       0x10030  (word 12)
      15  0x0001003c  00000000    nop
"""
NOT_STRAIGHT = [
    # one word ahead, among the lines
    (20, 1, straight_words([0, 0x14A00000], 64), """
       0  0x00010000  00000000    nop
-->    1  0x00010004  14a00000    bne     $5,$0,0x10008  (word 2)
       2  0x00010008  00000000    nop
       3  0x0001000c  00000000    nop
"""),
    # back to a bundle that is not among the lines
    (20, 9, straight_words(M + [0] * 5 + [JUMP], 64), """
       4  0x00010010  00000000    nop
       5  0x00010014  00000000    nop
       6  0x00010018  00000000    nop
       7  0x0001001c  00000000    nop

       8  0x00010020  00000000    nop
-->    9  0x00010024  08004000    j       0x10000  (word 0)
      10  0x00010028  00000000    nop
      11  0x0001002c  00000000    nop

It leads to word 0:
""" + M_BUNDLE),
    # past the start of the last bundle
    (20, 0, straight_words([0x0800400D], 64), """
-->    0  0x00010000  0800400d    j       0x10034  (word 13)
       1  0x00010004  00000000    nop
       2  0x00010008  00000000    nop
       3  0x0001000c  00000000    nop

It leads to word 13:
""" + ENDS),
    # JR, with a guard that fits: it leads to no word in particular
    (20, 2, straight_words([0x30A50030, 0x00BB2825, 0x00A00008], 64), """
       0  0x00010000  30a50030  / andi    $5,$5,0x30
       1  0x00010004  00bb2825  | or      $5,$5,$27
-->    2  0x00010008  00a00008  \\ jr      $5
       3  0x0001000c  00000000    nop
"""),
    # JAL in the last bundle
    (20, 14, straight_words([], 64)[:14] + [0x0C00400C, 0], """
       8  0x00010020  00000000    nop
       9  0x00010024  00000000    nop
      10  0x00010028  00000000    nop
      11  0x0001002c  00000000    nop

      12  0x00010030  0000000c    syscall
      13  0x00010034  00000000    nop
-->   14  0x00010038  0c00400c    jal     0x10030  (word 12)
      15  0x0001003c  00000000    nop
"""),
    (21, None, straight_words([], 64)[:12] + [0x0000004C, 0, 0x0800400C, 0], """
      12  0x00010030  0000004c    syscall 0x1
      13  0x00010034  00000000    nop
      14  0x00010038  0800400c    j       0x10030  (word 12)
      15  0x0001003c  00000000    nop
"""),
]


def without_arrow(lines):
    """Where there is no place, lines have no room for an arrow."""
    return "".join(line[3:] if line.startswith("   ") else line for line in lines.splitlines(True))


def test_straight():
    for number, place, words, lines in NOT_STRAIGHT:
        name = write_words(words)
        expect_refused(["--straight"], name, number, place, without_arrow(lines) if place is None else lines, layout_text(code_size=64))
        expect(["explain", name], DONE, "%s is accepted, 16 words\n\n" % name + wrapped(ACCEPTED) + layout_text(code_size=64))
        said = told(number)
        members = {"file": name, "verdict": "refuse", "number": number, "place": place, "meaning": said["meaning"], "ask": said["ask"],
                   "change": said["change"], "around": around_of(lines, words), **layout_object(code_size=64)}
        expect_object(["explain", "--straight", "--json", name], REFUSED, members)
    expect_refused(["--straight"], module(PLACES[0][2], 16), 8, 0, PLACES[0][4], layout_text(code_size=16))
    expect_refused(["--straight", "--data-size", "2"], "samples/totals.module", 3, None, "", layout_text(code_size=512, data_size=2))
    for length in (16, 64, 65536):
        name, most = write_words(straight_words([], length)), length // 4 - 4
        begin = "%s is accepted, %d words\n\n" % (name, length // 4) + wrapped(ACCEPTED)
        expect(["explain", "--straight", name], DONE, begin + "\n" + wrapped(STRAIGHT % most) + layout_text(code_size=length))
        expect(["explain", name], DONE, begin + layout_text(code_size=length))
        expect_object(["explain", "--straight", "--json", name], DONE, {
            "file": name, "verdict": "accept", "words": length // 4, "most_steps": most, **layout_object(code_size=length)})
        expect_object(["explain", "--json", name], DONE, accepted_object(name, length // 4, code_size=length))


OTHER = ["--memory-length", "0x100000", "--code-base", "0x40000", "--data-base", "0xABC00", "--data-size", "1024"]


def test_other_layout():
    """Addresses count from the code base. M's jump leads to 0x10000 whatever the base."""
    lines = """
       0  0x00040000  3108003c  / andi    $8,$8,0x3c
       1  0x00040004  011a4025  | or      $8,$8,$26
       2  0x00040008  ad090000  \\ sw      $9,0($8)
       3  0x0004000c  0000000c    syscall

       4  0x00040010  00000000    nop
       5  0x00040014  00000000    nop
-->    6  0x00040018  08004000    j       0x10000  (outside the module)
       7  0x0004001c  00000000    nop
"""
    layout = layout_text(1048576, "0x40000", 32, "0xabc00", 1024)
    expect_refused(OTHER, "samples/m.module", 15, 6, lines, layout)
    name = module([0x08010000, 0, 0x08010000], 16)
    expect(["explain"] + OTHER + [name], DONE, "%s is accepted, 4 words\n\n" % name + wrapped(ACCEPTED)
           + layout_text(1048576, "0x40000", 16, "0xabc00", 1024))
    expect(["explain", "samples/refused.module", "--data-size", "128"], DONE, "samples/refused.module is accepted, 8 words\n\n"
           + wrapped(ACCEPTED) + layout_text(code_size=32, data_size=128))


def test_whole_texts():
    """Nothing in these is taken from the program: they are README's text, and the same for an accepted module."""
    expect("explain samples/refused.module", REFUSED, """\
samples/refused.module is refused, number 22 at word 0

An access with its two guard words, whose mask or offset is wrong: it could
reach outside the data. The word is the guard's ANDI, two before the access.

-->    0  0x00010000  3108007c    andi    $8,$8,0x7c
       1  0x00010004  011a4025    or      $8,$8,$26
       2  0x00010008  ad090000    sw      $9,0($8)
       3  0x0001000c  0000000c    syscall

What is wrong here: Word 0, with the mask 0x7c, guards the sw at word 2, with
the offset 0 and a width of 4. Mask, offset and width are 124 + 0 + 4 = 128, and
the data has 64 bytes. To mend: make the mask of word 0 a power of two less 4,
at most 0x3c. With a data size of 128 it would fit as it is.

Whom to ask: Whoever writes the compiler. First compare the file with the one
that the compiler wrote, by length and checksum: where they differ, fetch it
again. The author of the report cannot mend it.

What to do: See that the data size is the one that the compiler was told.
Compiler: the guard words are right; make the mask m a power of two less the
access's width, the offset a multiple of the width and not negative, and m +
offset + width at most the data size.

Checked for memory of 196608 bytes, 32 bytes of code at 0x10000,
64 bytes of data at 0x20000.
""")
    expect("explain samples/holes.module", REFUSED, """\
samples/holes.module is refused, number 25 at word 0

An access with its two guard words, whose mask has a hole: mask and width are no
power of two together, so that two rows can go to one cell. The word is the
guard's ANDI, two before the access.

-->    0  0x00010000  31080034    andi    $8,$8,0x34
       1  0x00010004  011a4025    or      $8,$8,$26
       2  0x00010008  ad090000    sw      $9,0($8)
       3  0x0001000c  0000000c    syscall

What is wrong here: Word 0, with the mask 0x34, guards the sw at word 2, with
the offset 0 and a width of 4. Mask and width are 52 + 4 = 56, which is 111000
in binary, with 3 ones, and a power of two has one. The mask is 110100 and
leaves 0x8 out of a place, so that the places 0x0 and 0x8 go to one cell, and
two rows can too. To mend: make the mask of word 0 0x1c, or 0x3c, which leaves
nothing out and fits the data.

Whom to ask: Whoever writes the compiler. First compare the file with the one
that the compiler wrote, by length and checksum: where they differ, fetch it
again. The author of the report cannot mend it.

What to do: Compiler: the guard words are right, and no access leaves the data;
make the mask m a power of two less the access's width, which is the size of a
table less the width, and let the register hold the place of a cell in it, and
not of a row.

Checked for memory of 196608 bytes, 32 bytes of code at 0x10000,
64 bytes of data at 0x20000.
""")
    expect("explain samples/forgotten.module", REFUSED, """\
samples/forgotten.module is refused, number 12 at word 3

An access without its two guard words: they are missing, others, or of another
register than its base. The word is the access.

       0  0x00010000  24080010    addiu   $8,$0,16
       1  0x00010004  240904e2    addiu   $9,$0,1250
       2  0x00010008  01294821    addu    $9,$9,$9
-->    3  0x0001000c  ad090000    sw      $9,0($8)

What is wrong here: The base of the sw at word 3 is register 8. Word 1 is addiu
$9,$0,1250 and must be andi $8,S,m. Word 2 is addu $9,$9,$9 and must be or
$8,$8,$26. To mend: put the two words before it, in the same bundle.

Whom to ask: Whoever writes the compiler. First compare the file with the one
that the compiler wrote, by length and checksum: where they differ, fetch it
again. The author of the report cannot mend it.

What to do: Compiler: just before the access, in the same bundle, put ANDI R,S,m
and OR R,R,26, where R is its base and not 0, 26 or 27. Another mask or offset
does not help.

Checked for memory of 196608 bytes, 32 bytes of code at 0x10000,
64 bytes of data at 0x20000.
""")
    expect("explain samples/m.module", DONE, """\
samples/m.module is accepted, 8 words

Placed and started by cc100_start, it stays in its own code and data, and its
run ends only in Integer Overflow, System Call, Breakpoint or Trap. That is
proved of every module that is accepted.

Checked for memory of 196608 bytes, 32 bytes of code at 0x10000,
64 bytes of data at 0x20000.
""")


def test_standard_input():
    words = M + [0, 0, 0x08004001, 0]
    expect_refused([], "standard input", 15, 6, TARGETS[1][3], layout_text(code_size=32), data=image(words, 32))
    expect("explain -", DONE, "standard input is accepted, 4 words\n\n" + wrapped(ACCEPTED) + layout_text(code_size=16), data=image([], 16))
    came = run("explain --json -", image([], 16))
    equal("explain --json -", "members", accepted_object("-", 4, code_size=16), json.loads(came.out))


def accepted_object(name, words, **layout):
    return {"file": name, "verdict": "accept", "words": words, **layout_object(**layout)}


def layout_object(memory_length=MEMORY_LENGTH, code_base=0x10000, code_size=32, data_base=0x20000, data_size=DATA_SIZE):
    return dict(zip(LAYOUT, (memory_length, code_base, code_size, data_base, data_size)))


def around_of(lines, words, base=0x10000):
    """What the lines between meaning and whom to ask say, as objects: without marks, arrow and where a branch leads."""
    around = []
    for line in lines.split("It leads")[0].split("\n"):
        if line:
            index, text = int(line[3:8]), " ".join(line[34:].split("  (")[0].split())
            around.append({"index": index, "address": base + 4 * index, "word": words[index], "instruction": text})
    return around


def test_objects():
    """Every refusal's object, member by member, and in this order."""
    cases = [(n, p, w, length, lines) for n, p, w, length, lines in PLACES] + [(15, p, w, length, lines) for p, w, length, lines in TARGETS]
    for number, place, words, length, lines in cases:
        name, said = module(words, length), told(number)
        whole = struct.unpack("<%dI" % (length // 4), image(words, length))
        members = {"file": name, "verdict": "refuse", "number": number, "place": place, "meaning": said["meaning"], "ask": said["ask"],
                   "change": said["change"], "around": around_of(lines, whole), **layout_object(code_size=length)}
        expect_object(["explain", "--json", name], REFUSED, members)
    for number, length, arguments, changed in LAYOUTS:
        name, said = write("tried.module", bytes(length)), told(number)
        numbers = {key: int(value.split()[-1], 0) if isinstance(value, str) else value for key, value in changed.items()}
        members = {"file": name, "verdict": "refuse", "number": number, "place": None, "meaning": said["meaning"], "ask": said["ask"],
                   "change": said["change"], **layout_object(**{"code_size": length, **numbers})}
        expect_object(["explain", "--json"] + arguments + [name], REFUSED, members)
    expect_object("explain samples/margin.module --json", DONE, accepted_object("samples/margin.module", 64, code_size=256))
    expect_object(["explain", "--json"] + OTHER + [module([0x08010000, 0, 0x08010000])], DONE,
                  accepted_object("tried.module", 4, memory_length=1048576, code_base=0x40000, code_size=16, data_base=0xABC00,
                                  data_size=1024))


def expect_object(arguments, status, members):
    """An object has no blanks between its members; no text here has a character that is escaped."""
    expect(arguments, status, json.dumps(members, separators=(",", ":"), ensure_ascii=False) + "\n")


def test_object_bytes():
    expect("explain --json samples/m.module", DONE,
           '{"file":"samples/m.module","verdict":"accept","words":8,"memory_length":196608,"code_base":65536,"code_size":32,'
           '"data_base":131072,"data_size":64}\n')
    expect("explain --json samples/m.module --data-size 2", REFUSED,
           '{"file":"samples/m.module","verdict":"refuse","number":3,"place":null,'
           '"meaning":"The data size is not a power of two from 4 to 65,536.",'
           '"ask":"Whoever set up the server: the numbers of its layout do not fit together.",'
           '"change":"Give the module the next larger size.",'
           '"memory_length":196608,"code_base":65536,"code_size":32,"data_base":131072,"data_size":2}\n')
    expect(["explain", "--json", module([0x3C1A0000])], REFUSED,
           '{"file":"tried.module","verdict":"refuse","number":10,"place":0,'
           '"meaning":"Register 26 or 27 is written. They hold the bases of data and code.",'
           '"ask":"Whoever writes the compiler. First compare the file with the one that the compiler wrote, by length and checksum: where '
           'they differ, fetch it again. The author of the report cannot mend it.",'
           '"change":"Compiler: keep both out of use.",'
           '"around":[{"index":0,"address":65536,"word":1008336896,"instruction":"lui $26,0x0"},'
           '{"index":1,"address":65540,"word":0,"instruction":"nop"},'
           '{"index":2,"address":65544,"word":134234112,"instruction":"j 0x10000"},'
           '{"index":3,"address":65548,"word":0,"instruction":"nop"}],'
           '"memory_length":196608,"code_base":65536,"code_size":16,"data_base":131072,"data_size":64}\n')
    expect("explain --number 11 --json", DONE,
           '{"number":11,"is":"refusal","meaning":"JALR with rd = rs, or BLTZAL or BGEZAL with rs = 31.",'
           '"ask":"Whoever writes the compiler. First compare the file with the one that the compiler wrote, by length and checksum: where '
           'they differ, fetch it again. The author of the report cannot mend it.",'
           '"change":"Compiler: take another register.","example":"0x07F10000"}\n')
    expect("explain --json --number 48", DONE, '{"number":48,"is":"exit","name":"Trap","meaning":"The condition of a trap holds."}\n')


def test_numbers():
    """The text of every number has the sentences of its object, in lines of at most 80 columns."""
    for number in range(1, 28):
        said = told(number)
        expect("explain --number %d" % number, DONE, "%d is a refusal\n\n" % number + wrapped(said["meaning"])
               + "\nFor example: %s\n\n" % said["example"] + wrapped("Whom to ask: " + said["ask"]) + "\n"
               + wrapped("What to do: " + said["change"]))
    for number in range(40, 53):
        said = told(number)
        expect("explain --number %d" % number, DONE, "%d is an exit, %s\n\n" % (number, said["name"]) + wrapped(said["meaning"]))


def test_number_texts():
    expect("explain --number 0x2", DONE, """\
2 is a refusal

The code size, or an area's size, is not a power of two from 16 to 65,536.

For example: 24

Whom to ask: Of a module, first whoever sent the file: it may have been cut off
or added to on its way. Where it is whole, whoever set up the server. Of an
area, whoever asked for it or handed it back.

What to do: See that the file is whole. The compiler fills a module up to such a
size, before its last jump. Of an area: ask for the next larger of these sizes,
or hand it back with the size that it was given with.
""")
    expect("explain --number 50", DONE, """\
50 is an exit, fetch outside memory

Not all of the four bytes from PC on are inside memory; they do not wrap, so PC
0xFFFFFFFC gives 50.
""")
    for number in (0, 28, 39, 53, 2 ** 32 - 1):
        expect(["explain", "--number", str(number)], 2, "",
               "cc100 explain: %d is no number of a refusal, 1 to 27, or of an exit, 40 to 52\n"
               "usage: cc100 explain [OPTION]... FILE | --number N\n'cc100 explain --help' says more\n" % number)
