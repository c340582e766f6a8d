"""The vectors, written in assembler: for each its text, the number of steps, and what it is given."""
import random

HEAD = """\
# Public MIPS vectors: what MIPS code gives on QEMU, for document 01's machine to give as well.
# Made by tests/mips/make.py; not to be edited. tests/mips/README.md says what is left out, and why.
#
# Assembled by {binutils}, with -EL -mips2.
# Run by Unicorn {unicorn}, which is QEMU's MIPS, as a 32-bit little-endian MIPS.
#
# A line is a vector: assembler text | its words | what is given | what it gives. Numbers of steps, numbers of exits, registers and
# addresses after m are decimal, all else is hexadecimal.
#
#   text     the instructions, with ; between them; `.` is the address of the instruction that it stands in
#   words    as assembled; the first stands at the PC that is given
#   given    the number of steps; then registers r1 to r31, hi, lo and pc, and bytes of memory: m40=80ff is 80 at 40 and ff at 41
#   result   0 where all steps were done, or the exit that the last one tried ends in; then what has changed, and nothing else has
#
# What is not given is the same in all: pc is 00000010. Register N, and hi and lo as registers 32 and 33, have the byte N four times. The
# LL bit is clear. Memory is 84 bytes, the byte at address A is the lowest 8 bits of 37 * A + 11. No vector ends between a branch and its
# slot: the following instruction is at pc + 4. After an exit pc is at the instruction that exits.
#
# Exceptions of QEMU, by their numbers there, and the exits of document 01: 21 overflow is 40, 12 address error on a load is 42, 13
# address error on a store is 43, 17 SYSCALL is 46, 18 BREAK is 47, 22 trap is 48.
"""
WORD = 0xFFFFFFFF
EDGES = (0, 1, 0x7FFFFFFF, 0x80000000, 0xFFFFFFFF, 0x12345678)
FEW = (0, 1, 0x7FFFFFFF, 0x80000000, 0xFFFFFFFF)
CONSTANTS = (0, 1, 0x7FFF, -0x8000, -1)
BITS = (0, 1, 0x7FFF, 0x8000, 0xFFFF)
COMBINED = ("add", "addu", "sub", "subu", "slt", "sltu", "and", "or", "xor", "nor")
SIGNED = ("addi", "addiu", "slti", "sltiu")
UNSIGNED = ("andi", "ori", "xori")
SHIFTS = ("sll", "srl", "sra")
WIDTHS = {"lb": 1, "lbu": 1, "lh": 2, "lhu": 2, "lw": 4, "ll": 4, "sb": 1, "sh": 2, "sw": 4, "sc": 4}
LOADS, STORES = ("lb", "lbu", "lh", "lhu", "lw", "ll"), ("sb", "sh", "sw", "sc")
TRAPS = ("teq", "tge", "tgeu", "tlt", "tltu", "tne")
CONSTANT_TRAPS = ("teqi", "tgei", "tgeiu", "tlti", "tltiu", "tnei")
COMPARE_ZERO = ("bgez", "bgezal", "bgtz", "blez", "bltz", "bltzal")
LEFT_OUT = {"mfc0", "mtc0", "rfe"}
OTHERS = ("break", "div", "divu", "j", "jal", "jalr", "jr", "lui", "mfhi", "mflo", "mthi", "mtlo", "mult", "multu", "sync", "syscall")
ALL = set(COMBINED + SIGNED + UNSIGNED + SHIFTS + LOADS + STORES + TRAPS + CONSTANT_TRAPS + COMPARE_ZERO + OTHERS)
ALL |= {"beq", "bne", "sllv", "srlv", "srav"}


def vector(text, steps=None, **given):
    """A vector takes a step for each instruction unless it says otherwise."""
    return text, steps or len(text.split(";")), {name: v if isinstance(v, bytes) else v & WORD for name, v in given.items()}


def register_forms():
    made = []
    for name in COMBINED:
        made += [vector("%s $7, $5, $6" % name, r5=a, r6=b) for a in FEW for b in FEW]
        # register 0 as destination and source, sources equal to the destination or to each other
        for form in ("$0, $5, $6", "$5, $5, $6", "$6, $5, $6", "$5, $5, $5", "$7, $5, $5", "$7, $0, $6", "$7, $5, $0", "$0, $0, $0"):
            made.append(vector("%s %s" % (name, form), r5=3, r6=-16))
    for name in COMBINED[:6]:
        # the last sums and differences that fit, and the first that do not
        for a, b in ((0x7FFFFFFE, 1), (0x7FFFFFFE, 2), (0x80000001, -1), (0x80000001, -2), (-2, 0x7FFFFFFF), (-1, 0x80000000)):
            made.append(vector("%s $7, $5, $6" % name, r5=a, r6=b))
    made += [vector("%s $0, $5, $6" % name, r5=0x7FFFFFFF, r6=b) for name in ("add", "sub") for b in (1, -1)]
    return made + [vector("addu $%d, $%d, $%d" % (i, (i + 7) % 32, (i + 13) % 32)) for i in range(32)]


def constant_forms():
    made = []
    for names, constants in ((SIGNED, CONSTANTS), (UNSIGNED, BITS)):
        for name in names:
            made += [vector("%s $6, $5, %d" % (name, c), r5=a) for a in FEW for c in constants]
            for form in ("$0, $5", "$5, $5", "$6, $0", "$0, $0"):
                made.append(vector("%s %s, %d" % (name, form, constants[2]), r5=0x12345678))
    for name in SIGNED[2:]:
        # beside the constant, as it is and as a constant that was not sign-extended
        made += [vector("%s $6, $5, %d" % (name, c), r5=x + d) for c in (-0x8000, -1) for x in (c, c & 0xFFFF) for d in (-1, 0, 1)]
        made += [vector("%s $6, $5, 32767" % name, r5=x) for x in (0x7FFE, 0x7FFF, 0x8000, 0x7FFF8000, 0x7FFF8001)]
    made += [vector("addi $0, $5, 1", r5=0x7FFFFFFF), vector("addi $5, $5, -32768", r5=0x80007FFF)]
    return made + [vector("lui $%d, %d" % (r, c)) for r in (6, 0) for c in BITS]


def shifts():
    values = (1, 0x7FFFFFFF, 0x80000000, 0x9ABCDEF0)
    amounts = (0, 1, 2, 8, 15, 16, 30, 31)
    made = [vector("%s $7, $6, %d" % (name, n), r6=x) for name in SHIFTS for x in values for n in amounts]
    made += [vector("%s %s, 4" % (name, form), r6=0x87654321) for name in SHIFTS for form in ("$0, $6", "$6, $6", "$7, $0")]
    made.append(vector("sll $0, $0, 0"))
    # of a register, the five lowest bits are the amount
    amounts = (0, 1, 16, 31, 32, 33, 63, 0xE4, 0x100, 0x7FFFFFFF, 0x80000000, 0xFFFFFFE0)
    for name in ("sllv", "srlv", "srav"):
        made += [vector("%s $7, $6, $5" % name, r6=x, r5=n) for x in (0x80000001, 0x72345678) for n in amounts]
        forms = ("$0, $6, $5", "$6, $6, $5", "$5, $6, $5", "$6, $6, $6", "$7, $6, $0")
        made += [vector("%s %s" % (name, form), r6=0x87654321, r5=4) for form in forms]
    return made


def multiply_and_divide():
    values = FEW + (0xFFFFFFF9, 0x12345678)
    made = [vector("%s $5, $6" % name, r5=a, r6=b) for name in ("mult", "multu") for a in values for b in values]
    divisors = [b for b in values if b != 0] + [2, -2]
    made += [vector("%s $0, $5, $6" % name, r5=a, r6=b) for name in ("div", "divu") for a in values for b in divisors]
    made += [vector("%s$5, $5" % name, r5=-7) for name in ("mult ", "multu ", "div $0, ", "divu $0, ")]
    made += [vector("%s$0, $6" % name, r6=-7) for name in ("mult ", "multu ", "div $0, ", "divu $0, ")]
    for name in ("mfhi", "mflo"):
        made += [vector("%s $7" % name, hi=a, lo=b) for a, b in ((0, WORD), (WORD, 0), (0x80000000, 0x7FFFFFFF))]
        made.append(vector("%s $0" % name))
    made += [vector("%s $%d" % (name, r), r5=0x80000001) for name in ("mthi", "mtlo") for r in (5, 0, 31)]
    made += [vector("mthi $5; mtlo $6; mfhi $8; mflo $9"), vector("mult $5, $6; mfhi $8; mflo $9", r5=0x12345678, r6=0x9ABCDEF0)]
    return made


def accesses():
    """Loads find both signs in each width; an address is reached from above, from below and around the end of the addresses."""
    data = bytes((0x80, 0x7F, 0xFF, 0x00, 0x01, 0x80, 0xFE, 0xFF))
    made = []
    for name, width in WIDTHS.items():
        if name != "sc":
            made += [vector("%s $6, %d($5)" % (name, offset), r5=40, m40=data) for offset in range(0, 8, width)]
        made += [vector("%s $6, %d($5)" % (name, offset), r5=40 - offset, m40=data) for offset in (8, -8, 32, 32764, -32768, -4)]
        made += [vector("%s $6, %d($5)" % (name, 64 - width), r5=20), vector("%s $6, 44($0)" % name), vector("%s $5, 0($5)" % name, r5=48)]
        made += [vector("%s $0, 0($5)" % name, r5=40), vector("%s $31, 4($29)" % name, r29=36)]
    for name in STORES:
        made += [vector("%s $6, 4($5)" % name, r5=40, r6=x) for x in (0, WORD, 0x12345678, 0x80FF7F01)]
    parts = (("sb", 1), ("sb", 2), ("sb", 3), ("sh", 2))
    made += [vector("%s $6, %d($5)" % part, r5=40, r6=0x12345678) for part in parts]
    made += [vector("sw $6, 0($5); lb $7, 3($5); lhu $8, 2($5); lbu $9, 0($5)", r5=48, r6=0x87654321)]
    return made


def not_aligned():
    made = []
    for name, width in WIDTHS.items():
        if name == "sc":
            continue  # QEMU gives no address error for it
        made += [vector("%s $6, %d($5)" % (name, offset), r5=40) for offset in range(1, width)]
        made += [vector("%s $6, 0($5)" % name, r5=40 + low) for low in range(1, width)]
        made += [vector("%s $0, -1($5)" % name, r5=48)] if width > 1 else []
    made += [vector("%s $6, 1($5)" % name, r5=43) for name in ("lh", "lw", "sh", "sw", "ll")]
    return made


def linked():
    made = [vector("sc $6, %d($5)" % offset, r5=48, r6=WORD) for offset in (0, 4, -4)]
    made += [vector("ll $7, %d($5); sc $6, %d($5)" % (offset, offset), r5=48) for offset in (0, 4, -8)]
    made.append(vector("ll $7, 0($5); addiu $7, $7, 1; sc $7, 0($5)", r5=48, m48=b"\xff\0\0\0"))
    made.append(vector("ll $5, 0($5); nor $5, $5, $0; sc $5, 48($0)", r5=48))
    made.append(vector("ll $7, 0($5); sc $6, 0($5); sc $8, 0($5)", r5=48))
    made.append(vector("ll $7, 0($5); sc $6, 0($5); ll $8, 0($5)", r5=48))
    made.append(vector("ll $7, 0($5); sc $6, 0($5); ll $8, 0($5); sc $9, 0($5)", r5=48))
    made.append(vector("ll $7, 0($5); ll $8, 4($5); sc $6, 4($5)", r5=48))
    made.append(vector("ll $7, 0($5); lw $8, 0($5); addu $9, $7, $8; sc $9, 0($5)", r5=48))
    made.append(vector("ll $7, 0($5); beq $0, $0, .+8; sync; sc $6, 0($5)", r5=48))
    made.append(vector("ll $0, 0($5); sc $0, 0($5)", r5=48))
    made.append(vector("ll $7, 0($5); syscall", r5=48))
    return made


SLOT = "addiu $8, $8, 1"


def conditions():
    made = []
    for name in ("beq", "bne"):
        made += [vector("%s $5, $6, .+%d; %s" % (name, 16, SLOT), r5=a, r6=b) for a in FEW for b in FEW]
        made += [vector("%s $5, $6, .-16; %s" % (name, SLOT), r5=a, r6=7) for a in (7, 8)]
        made += [vector("%s $5, $0, .+16; %s" % (name, SLOT), r5=a) for a in (0, 1)]
    for name in COMPARE_ZERO:
        made += [vector("%s $5, .+%d; %s" % (name, 16, SLOT), r5=a) for a in EDGES]
        made += [vector("%s $5, .-16; %s" % (name, SLOT), r5=a) for a in EDGES]
        made.append(vector("%s $0, .+16; %s" % (name, SLOT)))
    return made


def branch_forms():
    made = []
    branches = ["beq $5, $6, ", "bne $5, $0, "] + [name + " $5, " for name in COMPARE_ZERO]
    for branch in branches:
        for r5 in (1, -1):
            given = {"r5": r5, "r6": r5}
            made += [vector("%s.%+d; %s" % (branch, by, SLOT), **given) for by in (4, 64, 131072, 0)]
            # the slot changes what is compared, or reads the link
            made.append(vector("%s.+16; subu $5, $0, $5" % branch, **given))
            made.append(vector("%s.+16; addu $8, $31, $5" % branch, **given))
            # a step more, at either place
            made.append(vector("%s.+12; %s; addiu $8, $8, 16; addiu $8, $8, 256" % (branch, SLOT), steps=3, **given))
    for slot in ("lw $8, 40($0)", "sw $5, 40($0)", "mult $5, $5", "mfhi $8", "sll $0, $0, 0", "sync", "lui $31, 4660", "addiu $31, $31, 4"):
        made += [vector("%s $5, .+20; %s" % (name, slot), r5=r5) for name in ("bltz", "bgezal") for r5 in (1, -1)]
    return made


def jumps():
    made = [vector("%s %d; %s" % (name, target, SLOT)) for name in ("j", "jal") for target in (0, 16, 20, 24, 64, 80, 0x1000, 0xFFFFFFC)]
    made += [vector("jal 64; addiu $8, $31, 1"), vector("jal 64; lui $31, 1")]
    made.append(vector("j 28; %s; addiu $8, $8, 16; addiu $8, $8, 256" % SLOT, steps=3))
    targets = (0, 16, 20, 24, 64, 80, 0x1000, 0x7FFFFFFC, 0x80000000, 0xBFFFFFFC)
    for jump in ("jr $5", "jalr $31, $5", "jalr $7, $5", "jalr $0, $5"):
        made += [vector("%s; %s" % (jump, SLOT), r5=target) for target in targets]
        made.append(vector("%s; addiu $5, $5, 4" % jump, r5=64))
    made += [vector("jr $31; %s" % SLOT, r31=48), vector("jr $0; %s" % SLOT), vector("jalr $5, $31; %s" % SLOT, r31=48)]
    made += [vector("jalr $31, $5; addiu $8, $31, 1", r5=48), vector("jalr $7, $5; lui $7, 1", r5=48)]
    made.append(vector("jal 32; %s; jr $6; lui $9, 9; jr $31; addiu $31, $31, 4" % SLOT, steps=6, r6=48))
    return made


def traps():
    made = []
    for name in TRAPS:
        made += [vector("%s $5, $6" % name, r5=a, r6=b) for a in FEW for b in FEW]
        made += [vector("%s $5, $6, %d" % (name, code), r5=a, r6=7) for a in (6, 7, 8) for code in (1, 1023)]
        made += [vector("%s $5, $5" % name), vector("%s $0, $0" % name)]
    for name in CONSTANT_TRAPS:
        made += [vector("%s $5, %d" % (name, c), r5=a) for a in FEW for c in CONSTANTS]
        made += [vector("%s $5, -32768" % name, r5=x + d) for x in (-0x8000, 0x8000) for d in (-1, 0, 1)]
        made.append(vector("%s $0, 0" % name))
    return made


def calls():
    made = [vector("syscall %d" % code if code else "syscall") for code in (0, 1, 14, 15, 16, 31, 0x3FF, 0xF000, 0xFFFFF)]
    made += [vector("break %d" % code if code else "break") for code in (0, 1, 14, 15, 16, 1023)]
    made += [vector("break 1, 2"), vector("break 1023, 1023")]
    last = ("syscall", "break", "teq $0, $0", "lw $6, 42($0)", "sw $6, 41($0)", "addi $6, $8, 1")
    made += [vector("addiu $5, $5, 1; %s" % text) for text in last]
    made.append(vector("lui $8, 0x7fff; ori $8, $8, 0xffff; addi $8, $8, 1; addiu $9, $9, 1"))
    return made + [vector("sync"), vector("sync; addiu $5, $5, 1"), vector(".word 0x0000040f"), vector(".word 0x000007cf")]


def program(*parts, **given):
    return vector("; ".join(parts), steps=1000, **given)


def programs():
    """Loops and calls of some tens to hundreds of steps; each ends in an exit."""
    made = [program("addiu $5, $5, -1; bne $5, $0, .-4; addu $6, $6, $5; syscall", r5=100, r6=0)]
    made.append(program(
        "divu $0, $5, $6; or $5, $0, $6; mfhi $6; bne $6, $0, .-12; addiu $7, $7, 1; syscall", r5=2971215073, r6=1836311903, r7=0))
    made.append(program(
        "lbu $7, 0($5); addiu $5, $5, 1; sb $7, 11($5); bne $5, $6, .-12; addu $8, $8, $7; syscall", r5=48, r6=60, r8=0))
    made.append(program(
        "ll $7, 64($0); addiu $7, $7, 1; sc $7, 64($0); beq $7, $0, .-12; addiu $6, $6, -1", "bgtz $6, .-20; sll $0, $0, 0; syscall",
        r6=30))
    made.append(program(
        "jal 36; or $4, $0, $5; bne $8, $0, .-8; addiu $4, $4, 1; syscall", "sll $6, $5, 3; slt $7, $6, $5; addiu $8, $8, -1; jr $31",
        "addu $9, $9, $6", r4=1, r5=3, r8=20, r9=0))
    made.append(program(
        "sll $6, $5, 13; xor $5, $5, $6; srl $6, $5, 17; xor $5, $5, $6; sll $6, $5, 5; xor $5, $5, $6", "addiu $8, $8, -1; bgtz $8, .-28",
        "srav $7, $5, $8; syscall", r5=2463534242, r8=40))
    made.append(program(
        "srl $6, $5, 1; andi $7, $5, 1; subu $7, $0, $7; and $7, $7, $9; xor $5, $6, $7", "addiu $8, $8, -1; bne $8, $0, .-24",
        "nor $10, $5, $0; syscall", r5=0xDEADBEEF, r8=32, r9=0xEDB88320))
    made.append(program(
        "multu $5, $6; mflo $5; addiu $5, $5, 12345; mfhi $9; div $0, $5, $7; mfhi $10; mflo $11", "addu $12, $12, $10; addiu $8, $8, -1",
        "bgtz $8, .-36; sltu $13, $11, $12; syscall", r5=1, r6=1103515245, r7=-1000, r8=25, r12=0))
    made.append(program("add $5, $5, $5; teqi $7, 0; bgezal $0, .-8; addiu $7, $7, -1; syscall", r5=3, r7=40))
    made.append(program("addiu $7, $7, -1; teqi $7, 0; bgezal $0, .-8; addu $5, $5, $31; syscall", r5=3, r7=40))
    return made


def random_statement(rng):
    """An instruction of the plain kinds, on registers 1 to 12 and the memory from 64 on, that has the same meaning on both machines."""
    a, b, c = ("$%d" % rng.randrange(13) for _ in range(3))
    kind = rng.randrange(7)
    if kind == 0:
        return "%s %s, %s, %d" % (rng.choice(SIGNED), a, b, rng.randrange(-0x8000, 0x8000))
    if kind == 1:
        return "%s %s, %s, %d" % (rng.choice(UNSIGNED), a, b, rng.randrange(0x10000))
    if kind == 2:
        return "%s %s, %s, %d" % (rng.choice(SHIFTS), a, b, rng.randrange(32))
    if kind == 3:
        return rng.choice(("mult %s, %s" % (a, b), "multu %s, %s" % (a, b), "mfhi %s" % a, "mflo %s" % a, "mthi %s" % a, "mtlo %s" % a))
    if kind == 4:
        name = rng.choice([name for name in WIDTHS if name not in ("ll", "sc")])
        return "%s %s, %d($0)" % (name, a, rng.randrange(64, 84, WIDTHS[name]))
    if kind == 5:
        return "%s %s, %s, %s" % (rng.choice(("sllv", "srlv", "srav")), a, b, c)
    return "%s %s, %s, %s" % (rng.choice(COMBINED), a, b, c)


def random_programs():
    """Statements in a row, where a wrong state shows in what follows. An overflow ends one early."""
    rng = random.Random(72)
    made = []
    for _ in range(100):
        given = {"r%d" % i: rng.choice((rng.getrandbits(32), rng.choice(EDGES), rng.randrange(100))) for i in range(1, 13)}
        made.append(vector("; ".join(random_statement(rng) for _ in range(8)), **given))
    return made


def groups():
    makers = (
        ("Three registers", register_forms), ("Constants", constant_forms), ("Shifts", shifts),
        ("Multiply and divide", multiply_and_divide), ("Loads and stores", accesses),
        ("Loads and stores that are not aligned", not_aligned), ("LL and SC", linked), ("Conditions of branches", conditions),
        ("Targets, slots and links of branches", branch_forms), ("Jumps", jumps), ("Traps", traps),
        ("SYSCALL, BREAK and SYNC", calls), ("Programs", programs), ("Random statements", random_programs))
    return [(name, list({str(v): v for v in maker()}.values())) for name, maker in makers]


def check_tried(made):
    """Each instruction that is not left out was completed alone or with its slot, where it can be, and gave each exit that it can give."""
    tried = {(text.split()[0], line.split()[0]) for (text, _, _), line in made if text.count(";") < 2}
    own = {name: "40" for name in ("add", "addi", "sub")}
    own.update({name: "42" for name in LOADS if WIDTHS[name] > 1})
    own.update({name: "43" for name in ("sh", "sw")})
    own.update({name: "48" for name in TRAPS + CONSTANT_TRAPS})
    possible = {(name, "0") for name in ALL - {"syscall", "break"}} | set(own.items()) | {("syscall", "46"), ("break", "47")}
    assert possible <= tried, possible - tried
    assert len(ALL) + len(LEFT_OUT) == 72
