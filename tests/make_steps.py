#!/usr/bin/env python3
"""Makes the cases of crates/steps: those below, and after them the public MIPS vectors of tests/mips.

Run it from anywhere; it writes crates/steps/stdin (256 bytes a case) and, by `make expected`, crates/steps/stdout (a line a case): what the
cases must give by the emulator in tests/emulator. Of the public vectors that has to be what QEMU gave.

A case is 64 little-endian words: the state's 41 in the order of document 01, the memory's length (0 to 84), the number of steps to take
(at least 1), and 84 bytes of memory, of which only that length is lent. The steps go on until they are done or one gives a number other
than 0. The line is the last step's number, then ` I=XXXXXXXX` for each word of the state that changed and ` mA=XX` for each byte of memory.
"""
import functools
import random
import struct
import sys

sys.dont_write_bytecode = True  # the import would leave a folder beside the sources
from make_vectors import CONTROL, FIELDS, ROOT, TABLE, expected, name_of, places, random_fields, word_of
from mips import cases as mips

WORD, USER_MODE = 0xFFFFFFFF, 8
NAMES = [name for _, name, _ in TABLE]
COMBINED = ("ADD", "ADDU", "SUB", "SUBU", "AND", "OR", "XOR", "NOR", "SLT", "SLTU")
CONSTANTS = ("ADDI", "ADDIU", "SLTI", "SLTIU", "ANDI", "ORI", "XORI")
SHIFTS = ("SLL", "SRL", "SRA")
TRAPS = ("TEQ", "TNE", "TGE", "TGEU", "TLT", "TLTU")
CONSTANT_TRAPS = ("TEQI", "TNEI", "TGEI", "TGEIU", "TLTI", "TLTIU")
LOADS = ("LB", "LBU", "LH", "LHU", "LW", "LL")
STORES = ("SB", "SH", "SW", "SC")
# Values of rs with which each is taken and not taken, where rt is 0.
BRANCHES = {
    "BEQ": (0, 1), "BNE": (1, 0), "BGEZ": (0, WORD), "BGEZAL": (0, WORD), "BGTZ": (1, 0), "BLEZ": (0, 1),
    "BLTZ": (WORD, 0), "BLTZAL": (WORD, 0),
}
# Places in the state, after the 32 registers.
HI, LO, PC, NEXT, LL, BAD, STATUS, CAUSE, RETURN = range(32, 41)
EDGES = (0, 1, 0x7FFFFFFF, 0x80000000, 0xFFFFFFFF)
VALUES = (0, 1, 0x7FFF, 0x8000, 0xFFFF)
KERNEL, USER = 0x1555, 0x0AAA
SPECIAL_NAMES = {"hi": HI, "lo": LO, "pc": PC, "next": NEXT, "ll": LL, "bad": BAD, "status": STATUS, "cause": CAUSE, "epc": RETURN}
# Loads find both signs in each width here.
DATA, BYTES = 40, bytes((0x80, 0x7F, 0xFF, 0x00, 0x01, 0x80, 0xFE, 0xFF))


def word(name, rs=0, rt=0, rd=0, shift=0, value=0):
    if name not in ("J", "JAL", "SYSCALL", "BREAK"):
        value &= 0xFFFF
    return word_of(NAMES.index(name) + 1, rs, rt, rd, shift, value)


def fields_of(name):
    bits = TABLE[NAMES.index(name)][2]
    return {field for letter, field in FIELDS.items() if places(bits, letter)}


def case(*words, at=16, length=84, steps=1, **changes):
    """A case whose words stand at an address. Whatever is not said is a pattern, different in each place, so that a wrong write shows."""
    state = [i * 0x9E3779B9 & WORD for i in range(41)]
    state[LL], state[STATUS] = 0, KERNEL
    named = {SPECIAL_NAMES.get(key) or int(key[1:]): value & WORD for key, value in changes.items()}
    state[PC] = named.get(PC, at)
    state[NEXT] = state[PC] + 4 & WORD
    for i, value in named.items():
        state[i] = value
    memory = bytearray(37 * i + 11 & 255 for i in range(84))
    memory[DATA:DATA + 8] = BYTES
    code = struct.pack("<%dI" % len(words), *words)
    memory[at:at + len(code)] = code
    assert len(memory) == 84
    return struct.pack("<43I", *state, length, steps) + bytes(memory[:length]).ljust(84, b"\0")


def marked():
    """Cases C1 to C8 of document 01. C8's address is beyond a case's memory; 64 stands for it."""
    return [
        case(word("ADD", 5, 6, 7), r5=0x7FFFFFFF, r6=1),
        case(word("ADDU", 5, 6, 7), r5=0xFFFFFFFF, r6=1),
        case(word("SLTIU", 5, 7, value=0xFFFF), r5=5, r6=0),
        case(word("SRA", rt=6, rd=7, shift=4), r5=0, r6=0x80000000),
        case(word("MULT", 5, 6), r5=0xFFFFFFFF, r6=2),
        case(word("MULTU", 5, 6), r5=0xFFFFFFFF, r6=2),
        case(word("DIV", 5, 6), r5=-7, r6=2),
        case(0x1000FFFF, at=64, r5=0, r6=0),
    ]


def register_forms():
    made = []
    for name in COMBINED:
        made += [case(word(name, 5, 6, 7), r5=a, r6=b) for a in EDGES for b in EDGES]
        # destination 0, sources equal to the destination or to each other, register 0 as a source
        for rs, rt, rd in ((5, 6, 0), (5, 6, 5), (5, 6, 6), (5, 5, 5), (0, 6, 7), (5, 0, 7), (0, 0, 0)):
            made.append(case(word(name, rs, rt, rd), r5=3, r6=-16))
        # an overflow exits even where its result would vanish
        made += [case(word(name, 5, 6, 0), r5=0x7FFFFFFF, r6=b) for b in (1, -1)]
    for i in range(32):
        made.append(case(word("ADDU", (i + 7) % 32, (i + 13) % 32, i)))
    return made


def constant_forms():
    made = []
    for name in CONSTANTS:
        made += [case(word(name, 5, 6, value=v), r5=a) for a in EDGES for v in VALUES]
        for rs, rt in ((5, 0), (5, 5), (0, 6), (0, 0)):
            made += [case(word(name, rs, rt, value=v), r5=0x12345678) for v in (0x7FFF, 0x8001)]
    made += [case(word("ADDI", 5, 0, value=1), r5=0x7FFFFFFF), case(word("ADDI", 5, 5, value=0x8000), r5=0x80007FFF)]
    for name in ("SLTI", "SLTIU"):
        made += [case(word(name, 5, 6, value=v), r5=a) for v in VALUES[2:] for a in around(v)]
    return made + [case(word("LUI", rt=rt, value=v)) for rt in (6, 0) for v in VALUES]


def around(value):
    """A constant as it is extended either way, and the registers just below."""
    extended = value | 0xFFFF0000 if value & 0x8000 else value
    return sorted({(x + d) & WORD for x in (value, extended) for d in (-1, 0)})


def shift_forms():
    made = []
    for name in SHIFTS:
        made += [case(word(name, rt=6, rd=7, shift=by), r6=x) for by in (0, 1, 31) for x in EDGES + (0x92345678,)]
        made += [case(word(name, rt=rt, rd=rd, shift=3), r6=0x92345678) for rt, rd in ((6, 0), (6, 6), (0, 7))]
        variable = name + "V"
        made += [case(word(variable, 5, 6, 7), r5=by, r6=x) for by in (0, 1, 31, 32, -1) for x in EDGES + (0x92345678,)]
        for rs, rt, rd in ((5, 6, 0), (5, 6, 5), (5, 6, 6), (6, 6, 6), (0, 6, 7), (5, 0, 7)):
            made.append(case(word(variable, rs, rt, rd), r5=5, r6=0x92345678))
    return made


def multiply_and_divide():
    made = []
    for name in ("MULT", "MULTU", "DIV", "DIVU"):
        more = [(7, 2), (-7, 2), (7, -2), (-7, -2), (0x12345678, 0x9ABCDEF0), (2, 7), (-2, 7), (0x80000000, 2)]
        made += [case(word(name, 5, 6), r5=a, r6=b) for a, b in [(a, b) for a in EDGES for b in EDGES] + more]
        made += [case(word(name, rs, rt), r5=-9) for rs, rt in ((5, 5), (0, 5), (5, 0), (0, 0))]
    for name in ("MFHI", "MFLO"):
        made += [case(word(name, rd=rd), hi=x, lo=~x) for rd in (7, 31, 0) for x in EDGES]
    for name in ("MTHI", "MTLO"):
        made += [case(word(name, rs), r5=x) for rs in (5, 0) for x in EDGES]
    return made


def traps():
    made = []
    for name in TRAPS:
        made += [case(word(name, 5, 6), r5=a, r6=b) for a in EDGES for b in EDGES]
        made += [case(word(name, rs, rt, value=code), r5=4) for rs, rt, code in ((5, 5, 0), (0, 5, 1), (5, 0, 0x3FF), (0, 0, 0x200))]
    for name in CONSTANT_TRAPS:
        made += [case(word(name, 5, value=v), r5=a) for a in EDGES for v in VALUES]
        made += [case(word(name, 5, value=v), r5=a) for v in VALUES[2:] for a in around(v)]
        made += [case(word(name, 0, value=v)) for v in (0, 1, 0xFFFF)]
    return made


def accesses():
    made = []
    spots = [(DATA + i, 0) for i in (0, 1, 2, 3, 4, 6)]  # each alignment, both signs
    spots += [(DATA, 4), (DATA + 11, -3), (DATA + 32768, -32768), (DATA - 32764, 32764)]
    spots += [(0xFFFFFFFC, DATA + 4), (0xFFFFFFFF, 1), (4, -4), (0, -4), (0, -1)]  # past 2^32 and below 0
    spots += [(84 + d, 0) for d in (-4, -2, -1, 0, 4)]  # the last bytes and the first ones past them
    spots += [(x, 0) for x in (0x80000000, 0xFFFFFFFC, 0xFFFFFFFF)]
    for name in list(LOADS) + list(STORES):
        for ll in (0, 1) if name == "SC" else (1,):
            made += [case(word(name, 5, 6, value=v), r5=a, ll=ll) for a, v in spots]
            # memory whose length is no multiple of the width
            made += [case(word(name, 5, 6), r5=a, length=length, ll=ll) for length, a in ((81, 80), (81, 81), (82, 80), (83, 80), (83, 82))]
            # the register moved is the base, or 0, or both; base 0
            for rs, rt, v in ((5, 5, 4), (5, 0, 4), (0, 0, DATA), (0, 6, DATA), (0, 6, -4), (5, 0, 84)):
                made.append(case(word(name, rs, rt, value=v), r5=DATA, ll=ll))
            # the instruction's own bytes, and those of the next one, which then runs as it was stored
            made.append(case(word(name, 0, 6, value=16), ll=ll, r6=word("ADDIU", 5, 5, value=1), steps=2))
            made.append(case(word(name, 0, 6, value=20), ll=ll, r6=word("ADDIU", 5, 5, value=1), steps=2))
    return made


def linked():
    """LL and SC with each other and with what stands between them. SC looks at the LL bit and never at an address."""
    made = []
    ll, sc = word("LL", 5, 6, value=0), word("SC", 5, 7, value=0)
    between = [word(name, 5, 8, value=v) for name in ("SW", "SH", "SB", "LW", "LL") for v in (0, 8)] + [
        word("RFE"), word("SYNC"), word("ADD", 8, 9, 10), word("MTC0", rt=0, rd=12), word("SC", 5, 8, value=4), word("BEQ", value=1)]
    for bit in (0, 1):
        made += [case(ll, word("SC", 5, 7, value=v), r5=DATA, ll=bit, steps=2) for v in (0, 4, 20, 44, 2)]
        made += [case(ll, w, sc, r5=DATA, r8=3, r9=4, ll=bit, steps=3) for w in between]
        made += [case(w, sc, r5=DATA, r8=3, r9=4, ll=bit, steps=2) for w in between]
        made += [case(sc, sc, r5=DATA, ll=bit, steps=2), case(word("SC", 5, 5), r5=DATA, ll=bit), case(word("SC", 5, 0), r5=DATA, ll=bit)]
        made += [case(word("LL", 5, 0), sc, r5=DATA, ll=bit, steps=2), case(word("LL", 5, 5), r5=DATA, ll=bit)]
        # an LL that exits leaves the bit
        made += [case(word("LL", 5, 6, value=2), r5=DATA, ll=bit), case(word("SC", 5, 6, value=2), r5=DATA, ll=bit)]
        made += [case(word("RFE"), ll=bit, status=x) for x in (KERNEL, USER)]
    return made


def branches():
    made = []
    for name in BRANCHES:
        pairs = [(a, b) for a in EDGES for b in (EDGES if name in ("BEQ", "BNE") else (1,))]
        has_rt = "rt" in fields_of(name)
        made += [case(word(name, 5, 6 if has_rt else 0, value=3), r5=a, r6=b) for a, b in pairs]
        w = functools.partial(word, name, 5, 6 if has_rt else 0)
        for a, b in [(value, 0) for value in BRANCHES[name]]:
            made += [case(w(value=v), r5=a, r6=b) for v in (0, -1, 0x7FFF, 0x8000)]
            # in a slot: the offset and the link count from PC, not taken goes on from next PC
            made += [case(w(value=v), r5=a, r6=b, next=n) for v in (2, -3) for n in (0, 60, 0xFFFFFFFC)]
            made += [case(w(value=v), r5=a, r6=b, at=at) for v in (1, -30) for at in (0, 80)]
            # the slot runs first, then the target; and a branch in the slot
            made.append(case(w(value=2), *[word("ADDIU", r, r, value=1) for r in (7, 8, 9)], r5=a, r6=b, steps=3))
            made.append(case(w(value=3), w(value=5), 0, 0, 0, 0, 0, r5=a, r6=b, steps=4))
        made += [case(word(name, 0, value=4)), case(word(name, 31, 31 if has_rt else 0, value=4), r31=-5), case(word(name, 31, value=4), r31=5)]
    return made


def jumps():
    made = []
    for name in ("J", "JAL"):
        made += [case(word(name, value=v)) for v in (0, 1, 4, 5, 20, 0x2000000, 0x3FFFFFF)]
        made += [case(word(name, value=10), at=at, next=n) for at in (0, 80) for n in (at + 4, 60, 0xFFFFFFFC)]
        made.append(case(word(name, value=8), word("ADDIU", 7, 7, value=1), 0, 0, word("OR", 31, 0, 8), steps=3))
        made.append(case(word(name, value=8), word(name, value=9), 0, 0, 0, 0, steps=4))
    targets = (0, 16, 80, 84, 0x80000000, 0xFFFFFFFC, 1, 2, 3, 17, 0x7FFFFFFE, 0xFFFFFFFF)
    made += [case(word("JR", 5), r5=x) for x in targets]
    made += [case(word("JALR", 5, rd=7), r5=x) for x in targets]
    for x in (48, 49, 50):
        made += [case(word("JALR", 5, rd=rd), r5=x) for rd in (5, 0, 31)]
        made += [case(word("JALR", 31, rd=31), r31=x), case(word("JR", 31), r31=x)]
        made += [case(w, r5=x, next=n) for w in (word("JR", 5), word("JALR", 5, rd=7)) for n in (0, 60, 0xFFFFFFFC)]
    made += [case(word("JR", 0)), case(word("JALR", 0, rd=0)), case(word("JALR", 0, rd=31))]
    made.append(case(word("JALR", 5, rd=7), word("JR", 7), word("ADDIU", 8, 8, value=1), word("ADDIU", 9, 9, value=1), r5=24, steps=4))
    return made


def privileged():
    made = []
    for status in (KERNEL, USER, 0, USER_MODE, 0x1FF7, 0x1FFF):
        for rd in CONTROL:
            made += [case(word("MFC0", rt=6, rd=rd), status=status), case(word("MTC0", rt=6, rd=rd), status=status, r6=-1)]
        made.append(case(word("RFE"), status=status, ll=1))
    for rd in CONTROL:
        made += [case(word("MFC0", rt=0, rd=rd)), case(word("MTC0", rt=0, rd=rd)), case(word("MTC0", rt=6, rd=rd), r6=0xFFFFE000)]
        # the status just written rules the next step
        made.append(case(word("MTC0", rt=6, rd=rd), word("MFC0", rt=7, rd=rd), r6=-1, steps=2))
        made.append(case(word("MTC0", rt=6, rd=rd), word("MFC0", rt=7, rd=rd), r6=0x87654321 & ~USER_MODE, steps=2))
    made += [case(word("RFE"), status=1 << i, ll=1) for i in range(13)]
    made += [case(word("RFE"), word("RFE"), word("RFE"), status=x, steps=3) for x in (0x1FC7, 0x1FF7, 0x1FE7, KERNEL)]
    # numbers of no control register that can be moved: no instruction in either mode
    bad = [16 << 26 | move << 21 | 6 << 16 | rd << 11 for move in (0, 4) for rd in (0, 9, 11, 15, 16, 28, 31)]
    return made + [case(w, status=status) for w in bad for status in (KERNEL, USER)]


def calls():
    codes = (0, 1, 14, 15, 16, 31, 0xF000F, 0x8000F, 0x3C0, 0xFFFFF)
    made = [case(word(name, value=c), status=s) for name in ("SYSCALL", "BREAK") for c in codes for s in (KERNEL, USER)]
    made += [case(word(name, value=15), status=s, next=60) for name in ("SYSCALL", "BREAK") for s in (0, USER_MODE)]
    return made + [case(word("SYNC", value=stype), ll=ll) for stype in (0, 1, 16, 31) for ll in (0, 1)]


def fetches():
    made = [case(0, at=80), case(0, at=0), case(0, at=80, next=0xFFFFFFFC), case(0, next=0xFFFFFFF8, steps=2), case(0, at=80, steps=2)]
    partial = ((80, 83), (80, 82), (80, 81), (80, 80), (76, 79), (76, 80), (0, 4), (0, 3), (0, 1))
    made += [case(0, at=at, length=length) for at, length in partial]
    made += [case(pc=pc) for pc in (84, 88, 0x01000000, 0x7FFFFFFC, 0x80000000, 0xFFFFFFFC)]
    made += [case(pc=pc, length=0) for pc in (0, 4, 0xFFFFFFFC)] + [case(0, length=0, next=0, at=0, steps=3)]
    # outside memory comes before no instruction
    made += [case(0xFFFFFFFF, at=80, length=length) for length in (84, 83, 80)]
    # the last word, then past it
    return made + [case(word("ADDIU", 5, 5, value=1), at=80, steps=2), case(word("BEQ", value=-1), 0, at=76, steps=9)]


def no_instructions():
    """Numbers that are not used, and for each kind a legal word with one bit set that is drawn as zero."""
    rng = random.Random(101)
    words = [op << 26 | 0x00A60000 for op in range(64)] + [0x00A63800 | funct for funct in range(64)]
    words += [1 << 26 | 5 << 21 | rt << 16 for rt in range(32)] + [16 << 26 | rs << 21 | 12 << 11 for rs in range(32)]
    made = [case(w) for w in words if not name_of(w)][::4]
    for kind, _, bits in TABLE:
        w = word_of(kind, *random_fields(rng, bits))
        # between opcode and function; each such field is whole, so that its ends stand for it
        bad = [w | 1 << p for p in places(bits, "0") if 6 <= p < 26 and not name_of(w | 1 << p)]
        made += [case(x) for x in bad[:1] + bad[-1:]]
    words = [0xFFFFFFFF, 0x42000010 | 1 << 6, 0x42000011, 0x42000018, 0x43000010]
    words += [word(name, rt=6, rd=14) | bit for name in ("MFC0", "MTC0") for bit in (1, 32)]
    made += [case(w, status=s) for w in words for s in (KERNEL, USER)]
    return made


def refusals():
    nop = word("SLL")
    broken = [{"r0": 1}, {"r0": 0x80000000}, {"pc": 2}, {"pc": 17}, {"pc": 19}, {"next": 1}, {"next": 22}, {"next": 0xFFFFFFFF}]
    broken += [{"status": 1 << i} for i in (13, 14, 30, 31)] + [{"status": KERNEL | 1 << 13}, {"status": 0xFFFFFFFF}]
    broken += [{"r0": 1, "pc": 2}, {"next": 1, "status": 1 << 13}, {"r0": 1, "pc": 2, "next": 1, "status": 0xFFFFFFFF}]
    made = []
    for b in broken:
        made += [case(nop, steps=3, **b), case(length=0, **b)]  # 17 comes before a fetch outside memory
    return made + [case(nop, status=0x1FFF), case(pc=0xFFFFFFFE, next=3), case(pc=85), case(length=2, pc=2)]


def slots():
    """Each kind once where next PC is not PC + 4."""
    made = []
    for name in NAMES:
        fields = {"rs": 5, "rt": 6, "rd": 7, "shift": 4, "value": 8}
        if name in ("MFC0", "MTC0"):
            fields["rd"] = 14
        has = {f: v for f, v in fields.items() if f in fields_of(name)}
        made.append(case(word(name, **has), next=72, r5=32, r6=48))
    return made


def random_state(rng):
    def value():
        return rng.choice((rng.randrange(92), rng.randrange(21) * 4, rng.choice(EDGES), rng.getrandbits(32)))
    changes = {"r%d" % i: value() for i in range(1, 32)}
    for name in ("hi", "lo", "bad", "cause", "epc"):
        changes[name] = rng.getrandbits(32)
    changes["ll"] = rng.getrandbits(1)
    changes["status"] = rng.getrandbits(13) & ~(USER_MODE if rng.random() < 0.5 else 0)
    return changes


def random_word(rng):
    """Mostly a legal word, all kinds alike, its offset often small."""
    if rng.random() < 0.03:
        return rng.getrandbits(32)
    kind, name, bits = rng.choice(TABLE)
    fields = random_fields(rng, bits)
    if "value" in fields_of(name) and rng.random() < 0.7:
        fields[4] = rng.choice((0, 1, 2, 3, 4, 8, 16, 0xFFFE, 0xFFFC))
        if name in ("SYNC", "TEQ", "TNE", "TGE", "TGEU", "TLT", "TLTU"):
            fields[4] &= 31
    w = word_of(kind, *fields)
    return w ^ 1 << rng.randrange(32) if rng.random() < 0.03 else w


def random_cases():
    rng = random.Random(100)
    made = []
    for _ in range(300):
        at = rng.randrange(21) * 4
        changes = random_state(rng)
        if rng.random() < 0.3:
            changes["next"] = rng.choice((rng.randrange(21) * 4, rng.getrandbits(30) * 4))
        length = 84 if rng.random() < 0.8 else min(84, at + rng.randrange(2, 12))
        made.append(case(random_word(rng), at=at, length=length, **changes))
    # programs, where a wrong state shows in what follows
    for _ in range(100):
        words, changes = [random_word(rng) for _ in range(21)], random_state(rng)
        made.append(case(*words, at=0, steps=rng.randrange(2, 60), **changes))
    return made


def loops():
    """Some hundreds of steps each."""
    def add(rd, rs, rt):
        return word("ADDU", rs, rt, rd)

    def more(r, by):
        return word("ADDIU", r, r, value=by)

    stop, nop = word("BREAK", value=15), word("SLL")
    total = [more(5, -1), word("BNE", 5, 0, value=-2), add(6, 6, 5), stop]
    # data of 16 bytes at 64, as the guards of document 01 reach it
    guarded = [
        word("ANDI", 5, 8, value=12), word("OR", 8, 26, 8), word("LW", 8, 9), more(5, 4), word("XOR", 9, 5, 9), word("ANDI", 5, 8, value=15),
        word("OR", 8, 26, 8), word("SB", 8, 9), word("ANDI", 9, 8, value=14), word("OR", 8, 26, 8), word("LH", 8, 10),
        word("BNE", 5, 11, value=-12), add(12, 12, 10), stop]
    divide = [
        word("MULTU", 5, 6), word("MFLO", rd=5), word("MFHI", rd=9), word("DIV", 5, 7), more(7, 13), word("MFHI", rd=10), word("MFLO", rd=11),
        add(12, 12, 10), word("DIVU", 9, 12), word("XOR", 5, 11, 5), more(8, -1), word("BGTZ", 8, value=-12), word("MFLO", rd=13), stop]
    greatest = [word("DIVU", 5, 6), word("OR", 6, 0, 5), word("MFHI", rd=6), word("BNE", 6, 0, value=-4), more(7, 1), stop]
    counter = [
        word("LL", 26, 5), more(5, 1), word("SC", 26, 5), word("BEQ", 5, 0, value=-4), more(6, -1), word("BGTZ", 6, value=-6), nop, stop]
    call = [
        word("JAL", value=6), word("OR", 4, 0, 5), more(8, -1), word("BNE", 8, 0, value=-4), more(4, 1), stop,
        word("SLL", rt=5, rd=6, shift=3), word("SLT", 6, 5, 7), word("JR", 31), add(9, 9, 6)]
    shifts = [
        word("SLL", rt=5, rd=6, shift=13), word("XOR", 5, 6, 5), word("SRL", rt=5, rd=6, shift=17), word("XOR", 5, 6, 5),
        word("SLL", rt=5, rd=6, shift=5), word("XOR", 5, 6, 5), word("SRAV", 8, 5, 7), word("NOR", 7, 9, 9), word("BLTZAL", 7, value=1),
        more(8, -1), word("BGEZ", 8, value=-11), word("SLTU", 5, 9, 10), word("SYSCALL", value=7)]
    made = [
        case(*total, at=0, r5=200, r6=0, steps=1000),
        case(*guarded, at=0, r5=0, r9=0, r11=240, r12=0, r26=64, steps=1000),
        case(*divide, at=0, r5=12345, r6=1103515245, r7=-100, r8=40, r12=1, steps=1000),
        case(*greatest, at=0, r5=2971215073, r6=1836311903, r7=0, steps=1000),
        case(*counter, at=0, r6=60, r26=64, steps=1000),
        case(*call, at=0, r4=1, r8=50, r9=0, steps=1000),
        case(*shifts, at=0, r5=2463534242, r8=40, r9=0, steps=1000),
    ]
    made.append(case(*total, at=0, r5=200, r6=0, steps=300))  # stopped by its number of steps
    made.append(case(*total[:3], at=72, r5=200, r6=0, steps=1000))  # runs out of memory at its end
    return made


def tried(raw, line):
    """The instruction and the number of a case of one step; no name where the step comes to no instruction."""
    number, pc = int(line.split()[0]), struct.unpack_from("<I", raw, 4 * PC)[0]
    return "" if number in (17, 49, 50) else name_of(struct.unpack_from("<I", raw, 172 + pc)[0]), number


def check_tried(made, lines):
    """In the cases of one step each kind is completed, where it can be, and gives each exit that it can; nothing gives another number."""
    own = {"ADD": [40], "ADDI": [40], "SUB": [40], "JR": [41], "JALR": [41], "MFC0": [44], "MTC0": [44], "RFE": [45]}
    own.update({name: [42] for name in LOADS})
    own.update({name: [43] for name in STORES})
    own.update({name: [48] for name in list(TRAPS) + list(CONSTANT_TRAPS)})
    possible = {(name, number) for name in NAMES for number in [0] + own.get(name, [])} - {("SYSCALL", 0), ("BREAK", 0)}
    possible |= {("SYSCALL", 46), ("SYSCALL", 52), ("BREAK", 47), ("BREAK", 51), ("", 17), ("", 49), ("", 50)}
    found = {tried(raw, line) for raw, line in zip(made, lines, strict=True) if struct.unpack_from("<I", raw, 168)[0] == 1}
    assert found == possible, found ^ possible


def cases():
    made = marked() + register_forms() + constant_forms() + shift_forms() + multiply_and_divide() + traps() + accesses() + linked() + branches()
    made += jumps() + privileged() + calls() + fetches() + no_instructions() + refusals() + slots() + random_cases() + loops()
    return list(dict.fromkeys(made))


if __name__ == "__main__":
    made, public = cases(), mips.cases()
    (ROOT / "crates/steps/stdin").write_bytes(b"".join(made + [raw for raw, _ in public]))
    expected()
    lines = (ROOT / "crates/steps/stdout").read_text().splitlines()
    check_tried(made, lines[:len(made)])
    assert lines[len(made):] == [line for _, line in public]
    print(len(made), "cases and", len(public), "public vectors")
