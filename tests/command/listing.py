"""cc100 list: the lines, the marks of guards and what is said of a file that is no run of words.

Which guards must be marked is worked out here from document 01's rules. The texts of instructions are compared with GNU objdump's
elsewhere; here each of the 72 appears once, with its word from docs/INSTRUCTIONS.md.
"""
import random
import re
import struct

from modules import CODE_BASE, DATA_BASE, LARGEST, MEMORY_LENGTH, image, module
from program import DONE, NOT_DONE, REFUSED, equal, expect, run, write

# The fields of the words, by the letters of docs/INSTRUCTIONS.md: v by its width.
FIELDS = {"s": 5, "t": 6, "d": 7, "h": 9, "c": 12}
VALUES = {5: 0x1B, 10: 0x2A5, 16: 0xFFFC, 20: 0x12345, 26: 0x4003}
# The texts of the 72 in the order of their numbers. A branch by -4 words, counted from its slot, leads three words back; J and JAL
# lead to word 3.
TEXTS = """\
add     $7,$5,$6
addi    $6,$5,-4
addiu   $6,$5,-4
addu    $7,$5,$6
and     $7,$5,$6
andi    $6,$5,0xfffc
beq     $5,$6,BACK
bgez    $5,BACK
bgezal  $5,BACK
bgtz    $5,BACK
blez    $5,BACK
bltz    $5,BACK
bltzal  $5,BACK
bne     $5,$6,BACK
break   0x12345
div     $0,$5,$6
divu    $0,$5,$6
j       0x1000c  (word 3)
jal     0x1000c  (word 3)
jalr    $7,$5
jr      $5
lb      $6,-4($5)
lbu     $6,-4($5)
lh      $6,-4($5)
lhu     $6,-4($5)
ll      $6,-4($5)
lui     $6,0xfffc
lw      $6,-4($5)
mfc0    $6,$12
mfhi    $7
mflo    $7
mtc0    $6,$12
mthi    $5
mtlo    $5
mult    $5,$6
multu   $5,$6
nor     $7,$5,$6
or      $7,$5,$6
ori     $6,$5,0xfffc
rfe
sb      $6,-4($5)
sc      $6,-4($5)
sh      $6,-4($5)
sll     $7,$6,0x9
sllv    $7,$6,$5
slt     $7,$5,$6
slti    $6,$5,-4
sltiu   $6,$5,-4
sltu    $7,$5,$6
sra     $7,$6,0x9
srav    $7,$6,$5
srl     $7,$6,0x9
srlv    $7,$6,$5
sub     $7,$5,$6
subu    $7,$5,$6
sw      $6,-4($5)
sync    0x1b
syscall 0x12345
teq     $5,$6,0x2a5
teqi    $5,-4
tge     $5,$6,0x2a5
tgei    $5,-4
tgeiu   $5,-4
tgeu    $5,$6,0x2a5
tlt     $5,$6,0x2a5
tlti    $5,-4
tltiu   $5,-4
tltu    $5,$6,0x2a5
tne     $5,$6,0x2a5
tnei    $5,-4
xor     $7,$5,$6
xori    $6,$5,0xfffc
""".splitlines()

with open("docs/INSTRUCTIONS.md", encoding="utf-8") as file:
    ENCODINGS = re.findall(r"^\| \d+ \| \w+ \| [\d.]+ \| `([01a-z ]+)` \|", file.read(), re.M)


def encoded(drawing):
    bits = drawing.replace(" ", "")
    return int(re.sub(r"([a-z])\1*", lambda m: format(FIELDS.get(m[1], VALUES.get(len(m[0]))), "0%db" % len(m[0])), bits), 2)


def line(index, word, text, mark=" ", base=CODE_BASE):
    return "%5d  0x%08x  %08x  %s %s" % (index, (base + 4 * index) % 2 ** 32, word, mark, text)


def listed(lines):
    """Bundles are set apart by an empty line."""
    return "".join(("\n" if i and i % 4 == 0 else "") + text + "\n" for i, text in enumerate(lines))


def zeros(count, base=CODE_BASE):
    return [line(i, 0, "nop", base=base) for i in range(count)]


def test_72():
    words = [encoded(drawing) for drawing in ENCODINGS]
    equal("list", "the number of encodings and texts", (72, 72), (len(words), len(TEXTS)))
    texts = [text.replace("BACK", "0x%x  (word %d)" % (CODE_BASE + 4 * (i - 3), i - 3)) for i, text in enumerate(TEXTS)]
    name = write("tried.module", struct.pack("<72I", *words))
    expect(["list", name], DONE, listed([line(i, w, t) for i, (w, t) in enumerate(zip(words, texts))]))


def test_short_forms():
    """Only the zero word has one. A register 31 of JALR and a code or stype of 0 are left out."""
    cases = [
        (0x00000000, "nop"), (0x00000040, "sll     $0,$0,0x1"), (0x00000800, "sll     $1,$0,0x0"), (0x00A0F809, "jalr    $5"),
        (0x00A00009, "jalr    $0,$5"), (0x0000000C, "syscall"), (0x0000000D, "break"), (0x0000000F, "sync"), (0x00A60034, "teq     $5,$6"),
        (0x00A00025, "or      $0,$5,$0"), (0x24050007, "addiu   $5,$0,7"), (0x8CA58000, "lw      $5,-32768($5)"),
        (0x34000000, "ori     $0,$0,0x0"),
        (0xFFFFFFFF, ".word   0xffffffff"), (0x00000001, ".word   0x1"), (0x7FFFFFFF, ".word   0x7fffffff"),
    ]
    expect(["list", module([word for word, _ in cases], 4 * len(cases))], DONE, listed([line(i, w, t) for i, (w, t) in enumerate(cases)]))


def test_targets():
    """By document 01: offsets count from the slot, J and JAL keep the slot address's top four bits, and addresses wrap at 2^32."""
    at = CODE_BASE
    cases = [
        (at, [0x1000FFFF, 0x1000FFFD, 0x0800400F, 0x10000007, 0x10007FFF, 0x10008000, 0x08000000, 0x0BFFFFFF], [
            "beq     $0,$0,0x10000  (word 0)", "beq     $0,$0,0xfffc  (outside the module)", "j       0x1003c  (outside the module)",
            "beq     $0,$0,0x1002c  (outside the module)", "beq     $0,$0,0x30010  (outside the module)",
            "beq     $0,$0,0xffff0018  (outside the module)", "j       0x0  (outside the module)",
            "j       0xffffffc  (outside the module)"]),
        # the last word, and the one past it: slot 0x10004 + 4 * 2, slot 0x10008 + 4 * 2
        (at, [0x04010002, 0x04110002, 0, 0], [
            "bgez    $0,0x1000c  (word 3)", "bgezal  $0,0x10010  (outside the module)", "nop", "nop"]),
        # across 2^32: the slots of words 0 to 3 are 0xfffffffc, 0, 4 and 8
        (0xFFFFFFF8, [0x0BFFFFFE, 0x08000001, 0x0BFFFFFF, 0x1000FFFC], [
            "j       0xfffffff8  (word 0)", "j       0x4  (word 3)", "j       0xffffffc  (outside the module)",
            "beq     $0,$0,0xfffffff8  (word 0)"]),
        # the slot of the last word is in the next 2^28 bytes
        (0x0FFFFFF0, [0x0BFFFFFC, 0x0BFFFFFF, 0, 0x0BFFFFFC], [
            "j       0xffffff0  (word 0)", "j       0xffffffc  (word 3)", "nop", "j       0x1ffffff0  (outside the module)"]),
        (0, [0x1000FFFF, 0x1000FFFD, 0x0C000003, 0], [
            "beq     $0,$0,0x0  (word 0)", "beq     $0,$0,0xfffffffc  (outside the module)", "jal     0xc  (word 3)", "nop"]),
        # no base of a module: 0x10004 is inside word 0, and no word begins there
        (0x10002, [0x08004001, 0x1000FFFF, 0, 0], [
            "j       0x10004  (outside the module)", "beq     $0,$0,0x10006  (word 1)", "nop", "nop"]),
    ]
    for base, words, texts in cases:
        expect(["list", "--code-base", str(base), module(words, 4 * len(words))], DONE,
               listed([line(i, w, t, base=base) for i, (w, t) in enumerate(zip(words, texts))]))


def test_lengths():
    """A word that is not whole is not listed, and said; so is what is past the largest module."""
    for length in (4, 8, 12, 20, 28, 44, 65532, LARGEST):
        expect(["list", write("tried.module", bytes(length))], DONE, listed(zeros(length // 4)))
    for length in (1, 2, 3, 5, 7, 18, 31, 65533, 65535):
        expect(["list", write("tried.module", bytes(length))], REFUSED, listed(zeros(length // 4)),
               "cc100: the length of tried.module, %d, is no multiple of 4; what is left over is not listed\n" % length)
    for length in (65537, 65540, 131072):
        expect(["list", write("tried.module", bytes(length))], REFUSED, listed(zeros(LARGEST // 4)),
               "cc100: tried.module is longer than the largest module, 65,536 bytes; the rest is not listed\n")
    expect(["list", write("tried.module", b"")], NOT_DONE, "", "cc100: tried.module is empty\n")


def test_files():
    expect("list -", DONE, listed(zeros(2) + [line(2, 0x08004000, "j       0x10000  (word 0)"), line(3, 0, "nop")]), data=image([], 16))
    expect("list -", REFUSED, listed(zeros(1)), "cc100: the length of standard input, 5, is no multiple of 4; what is left over is not listed\n",
           data=bytes(5))
    expect("list -", REFUSED, listed(zeros(LARGEST // 4)),
           "cc100: standard input is longer than the largest module, 65,536 bytes; the rest is not listed\n", data=bytes(LARGEST + 1))
    expect("list -", NOT_DONE, "", "cc100: standard input is empty\n", data=b"")
    expect("list samples/missing.module", NOT_DONE, "", "cc100: cannot open samples/missing.module: No such file or directory\n")
    expect("list samples", NOT_DONE, "", "cc100: cannot read samples: Is a directory\n")


def test_sample():
    """README's lines of samples/margin.module, and M as a whole."""
    expect("list samples/m.module", DONE, """\
    0  0x00010000  3108003c  / andi    $8,$8,0x3c
    1  0x00010004  011a4025  | or      $8,$8,$26
    2  0x00010008  ad090000  \\ sw      $9,0($8)
    3  0x0001000c  0000000c    syscall

    4  0x00010010  00000000    nop
    5  0x00010014  00000000    nop
    6  0x00010018  08004000    j       0x10000  (word 0)
    7  0x0001001c  00000000    nop
""")
    lines = run("list samples/margin.module").out.decode().splitlines()
    for said in ("    4  0x00010010  314a003c  / andi    $10,$10,0x3c", "    5  0x00010014  015a5025  | or      $10,$10,$26",
                 "    6  0x00010018  8d4c0000  \\ lw      $12,0($10)", "    7  0x0001001c  254a0004    addiu   $10,$10,4",
                 "   60  0x000100f0  33ff00f0  / andi    $31,$31,0xf0", "   61  0x000100f4  03fbf825  | or      $31,$31,$27",
                 "   62  0x000100f8  03e00008  \\ jr      $31", "   26  0x00010068  0c004036    jal     0x100d8  (word 54)"):
        equal("list samples/margin.module", "a line", True, said in lines)


# Document 01's guards, whose masks have no hole by ticket 7 of document 02. The widths of accesses by opcode, and which of them write rt.
WIDTHS = {0x20: 1, 0x24: 1, 0x28: 1, 0x21: 2, 0x25: 2, 0x29: 2, 0x23: 4, 0x2B: 4, 0x30: 4, 0x38: 4}
WRITERS = {0x20, 0x24, 0x21, 0x25, 0x23, 0x30, 0x38}
DATA, CODE = 26, 27  # the registers of the bases


def fields(word):
    return word >> 26, word >> 21 & 31, word >> 16 & 31, word >> 11 & 31


def jump_register(word):
    """The register of a JR or JALR that no rule refuses by itself, or None. JALR must not link to the register that it jumps by, nor
    to a base."""
    if word & 0xFC1FFFFF == 0x00000008:
        return word >> 21 & 31
    _, rs, _, rd = fields(word)
    return rs if word & 0xFC1F07FF == 0x00000009 and rd not in (rs, DATA, CODE) else None


def guards(first, second, register, base):
    """Whether two words are ANDI R,S,m and OR R,R,base for a register R that may be guarded."""
    return (register not in (0, DATA, CODE) and first >> 26 == 0x0C and first >> 16 & 31 == register
            and second == register << 21 | base << 16 | register << 11 | 0x25)


def is_marked(words, code_size, data_size):
    """Of three words of a bundle, whether the last is an access, JR or JALR that the first two are a fitting guard of."""
    first, second, last = words
    mask, offset = first & 0xFFFF, last & 0xFFFF
    opcode, rs, rt, _ = fields(last)
    if opcode in WIDTHS:
        width = WIDTHS[opcode]
        writes_base = opcode in WRITERS and rt in (DATA, CODE)
        whole = bin(mask + width).count("1") == 1
        fits = whole and mask % width == 0 and offset % width == 0 and offset < 0x8000 and mask + offset + width <= data_size
        return not writes_base and fits and guards(first, second, rs, DATA)
    register = jump_register(last)
    return register is not None and mask % 16 == 0 and mask <= code_size - 16 and guards(first, second, register, CODE)


def marks_of(words, code_size, data_size):
    marks = [" "] * len(words)
    for i in range(2, len(words)):
        if i % 4 >= 2 and is_marked(words[i - 2:i + 1], code_size, data_size):
            marks[i - 2:i + 1] = "/|\\"
    return "".join(marks)


def near(rng, limit):
    """A number near a limit, near 0 or anywhere in 16 bits."""
    number = rng.choice((limit + rng.randint(-20, 20), limit, rng.randint(0, 20), rng.randrange(0, max(limit, 1)), rng.getrandbits(16)))
    return number & 0xFFFF


def some_register(rng):
    return rng.choice((0, 1, 8, 25, DATA, CODE, 28, 31, rng.randrange(32)))


def near_guard(rng, code_size, data_size):
    """Three words that are often a guard and what it is for; one thing in them is often wrong."""
    register = rng.choice((1, 5, 8, 25, 28, 31, rng.randrange(32)))
    opcode, base = rng.choice(list(WIDTHS) + [0] * 5), DATA
    width, size = WIDTHS.get(opcode, 16), data_size
    if opcode == 0:
        base, size = CODE, code_size
    below = max(size >> rng.randrange(1, 6), width) - width
    mask = rng.choice((size - width, size - width, below, near(rng, size))) // width * width & 0xFFFF
    offset = rng.choice((0, 0, (size - width - mask) & 0xFFFF, near(rng, size) // width * width))
    last = opcode << 26 | register << 21 | rng.choice((9, some_register(rng))) << 16 | offset
    if opcode == 0:
        last = rng.choice((register << 21 | 8, register << 21 | rng.choice((31, 0, some_register(rng))) << 11 | 9))
    words = [0x0C << 26 | rng.randrange(32) << 21 | register << 16 | mask, register << 21 | base << 16 | register << 11 | 0x25, last]
    damage = rng.randrange(12)
    if damage == 0:
        words[rng.randrange(3)] ^= 1 << rng.randrange(32)
    elif damage == 1:
        words[rng.randrange(3)] ^= rng.randrange(1, 8)
    elif damage == 2:
        words[0] = words[0] & 0xFFFF0000 | near(rng, size)
    elif damage == 3:
        words[1] ^= 1 << 16  # the other base
    elif damage == 4:
        words[1] = base << 21 | register << 16 | register << 11 | 0x25  # OR R,26,R
    elif damage == 5:
        words[0], words[1] = words[1], words[0]
    return words


def random_bundle(rng, code_size, data_size):
    """The three words stand at the beginning or the end of a bundle, or apart, or partly in the next one."""
    three, other = near_guard(rng, code_size, data_size), rng.choice((0, rng.getrandbits(32)))
    place = rng.randrange(10)
    if place < 5:
        return three + [other]
    if place < 8:
        return [other] + three
    return three[1:] + [other, three[0]] if place == 8 else [three[0], other] + three[1:]


# Code size, data size, and the rest of a layout that the checker takes.
LAYOUTS = [
    (16, 4, []), (32, 8, []), (64, 64, []), (256, 16, ["--code-base", "0", "--data-base", "0x1000"]), (1024, 1024, []), (4096, 4096, []),
    (8192, 32768, ["--code-base", "0xFFE000", "--memory-length", "16777216", "--data-base", "0xFF0000"]),
    (16384, 65536, []), (65536, 64, []), (65536, 65536, ["--code-base", "0xF0000", "--data-base", "0", "--memory-length", "0x100000"]),
]


def listed_marks(arguments):
    """The marks of all lines, and the lines without the texts of their instructions."""
    came = run(arguments)
    lines = [text for text in came.out.decode().split("\n") if text]
    return came.status, "".join(text[29] for text in lines), [text[:29] for text in lines]


def test_marks():
    rng = random.Random(20261116)
    met = {"marked": 0, "not marked": 0}
    for code_size, data_size, more in LAYOUTS:
        for _ in range(max(1, 1024 // code_size)):
            words = [word for _ in range(code_size // 16) for word in random_bundle(rng, code_size, data_size)]
            name = write("tried.module", struct.pack("<%dI" % len(words), *words))
            arguments = ["list", "--data-size", str(data_size)] + more + [name]
            status, marks, lines = listed_marks(arguments)
            expected = marks_of(words, code_size, data_size)
            base = int(more[more.index("--code-base") + 1], 0) if "--code-base" in more else CODE_BASE
            equal(arguments, "marks", expected, marks)
            equal(arguments, "lines", (DONE, [line(i, w, "", base=base)[:29] for i, w in enumerate(words)]), (status, lines))
            met["marked"] += expected.count("/")
            met["not marked"] += len(words) // 4 - expected.count("/")
    equal("list", "marked and other bundles are often met", True, min(met.values()) > 1000)


def test_marks_of_a_file_cut_off():
    """With the code size given, the guards of the words that are there are marked; the last three are a bundle that lacks one."""
    words = [0, 0x30A50030, 0x00BB2825, 0x00A00008, 0x30A50030, 0x00BB2825, 0x00A0F809]
    expect(["list", "--code-size", "64", module(words, 28)], DONE, """\
    0  0x00010000  00000000    nop
    1  0x00010004  30a50030  / andi    $5,$5,0x30
    2  0x00010008  00bb2825  | or      $5,$5,$27
    3  0x0001000c  00a00008  \\ jr      $5

    4  0x00010010  30a50030  / andi    $5,$5,0x30
    5  0x00010014  00bb2825  | or      $5,$5,$27
    6  0x00010018  00a0f809  \\ jalr    $5
""")
    # three bytes of JR, whose fourth is 0, are no word
    write("tried.module", image([0, 0x30A50000, 0x00BB2825, 0x00A00008])[:15])
    expect("list --code-size 16 tried.module", REFUSED, """\
    0  0x00010000  00000000    nop
    1  0x00010004  30a50000    andi    $5,$5,0x0
    2  0x00010008  00bb2825    or      $5,$5,$27
""", "cc100: the length of tried.module, 15, is no multiple of 4; what is left over is not listed\n")


def test_no_marks():
    """Where the data area is refused, or the layout of a jump, nothing is taken. M's mask fits 64 bytes of data and not 32."""
    def without_marks(words, base=CODE_BASE):
        texts = ["andi    $8,$8,0x3c", "or      $8,$8,$26", "sw      $9,0($8)", "syscall"]
        return listed([line(i, w, t, base=base) for i, (w, t) in enumerate(zip(words, texts))])

    words = [0x3108003C, 0x011A4025, 0xAD090000, 0x0000000C]
    name = module(words, 16)
    for more in (["--data-size", "32"], ["--data-size", "96"], ["--data-size", "131072"], ["--data-base", "0x20020"],
                 ["--data-base", "0x30000"],
                 ["--data-base", "0x10000"], ["--memory-length", "0x1000001"], ["--memory-length", "0"], ["--memory-length", "0x20020"],
                 ["--code-size", "24"], ["--code-size", "0"], ["--code-size", "131072"]):
        expect(["list"] + more + [name], DONE, without_marks(words))
    jump = [0, 0x30A50000, 0x00BB2825, 0x00A00008]
    texts = ["nop", "andi    $5,$5,0x0", "or      $5,$5,$27", "jr      $5"]
    for more in (["--code-size", "24"], ["--code-size", "8"], ["--code-size", "131072"], ["--code-base", "0x10008"],
                 ["--data-base", "0x10000"],
                 ["--memory-length", str(CODE_BASE)], ["--memory-length", str(MEMORY_LENGTH), "--data-base", str(DATA_BASE + 4)]):
        base = 0x10008 if "--code-base" in more else CODE_BASE
        expect(["list"] + more + [module(jump, 16)], DONE, listed([line(i, w, t, base=base) for i, (w, t) in enumerate(zip(jump, texts))]))
