"""cc100 run --steps: every line and object of a step beside the second emulator's.

The emulator gives the address, the word, the access and all registers, HI and LO after each step. Which registers a step must show is
worked out here from the word, by document 01 and the public MIPS II instruction set: what the instruction writes, also where its value
stays as it was, and nothing else; never register 0. The text of an instruction is taken from `cc100 list`, which is compared with GNU
objdump's elsewhere.
"""
import collections
import json
import random
import re
import struct

from listing import ENCODINGS
from modules import CODE_BASE, DATA_BASE, JUMP, TRAP, module
from program import DONE, REFUSED, equal, expect, run, write
from running import (COMPLETE, NONE_LEFT, access_object, access_text, after, data_text, end_object, incomplete, placed, spent,
                     start_object)

HI, LO = 32, 33
NAMES = ["$%d" % i for i in range(32)] + ["hi", "lo"]
EXITS = {40: "Integer Overflow", 46: "System Call", 47: "Breakpoint", 48: "Trap"}
MODULES, BUDGET = 70, 400

# registers is None where it exits, and exit where it does not; access is place, width and what it is, or None
Step = collections.namedtuple("Step", "address word access registers exit")
Run = collections.namedtuple("Run", "steps data next")  # the first 16 words of the data at its end, and where it stands unless it ended


def emulated(name, budget, figures):
    """A run by the second emulator. Where it stands at its end is seen from one step more."""
    def lines_of(most):
        return run(["run", name, str(most)] + [str(figure) for figure in figures], program="emulated").out.decode().splitlines()

    lines, longer = lines_of(budget), lines_of(budget + 1)
    following = longer[len(lines) - 1].split()[0]
    data = [int(word, 16) for word in lines[-1].split()[1:]]
    return Run([step_of(text.split()) for text in lines[:-1]], data, None if following == "data" else int(following, 16))


def step_of(parts):
    address, word = int(parts[0], 16), int(parts[1], 16)
    if parts[2] == "exit":
        return Step(address, word, None, None, int(parts[3]))
    at, width, store = (int(part, 16) for part in parts[2:5])
    access = (at - DATA_BASE, width, "store" if store else "load") if width else None
    return Step(address, word, access, [int(part, 16) for part in parts[5:]], None)


# Opcodes whose destination is rt: ADDI to LUI, loads, LL, and SC, which says there whether it stored.
RT_OPCODES = set(range(0x08, 0x10)) | {0x20, 0x21, 0x23, 0x24, 0x25, 0x30, 0x38}
# Functions of opcode 0 that write no general register: JR, SYSCALL, BREAK, SYNC, MTHI, MTLO, multiply, divide and the traps.
NO_REGISTER = {0x08, 0x0C, 0x0D, 0x0F, 0x11, 0x13, 0x18, 0x19, 0x1A, 0x1B, 0x30, 0x31, 0x32, 0x33, 0x34, 0x36}


def destinations(word):
    """The places that an instruction writes."""
    opcode, rt, rd, function = word >> 26, word >> 16 & 31, word >> 11 & 31, word & 63
    places = []
    if opcode == 0 and function in (0x18, 0x19, 0x1A, 0x1B):
        places = [HI, LO]
    elif opcode == 0 and function in (0x11, 0x13):
        places = [HI if function == 0x11 else LO]
    elif opcode == 0:
        places = [] if function in NO_REGISTER else [rd]
    elif opcode in RT_OPCODES:
        places = [rt]
    elif opcode == 3 or opcode == 1 and rt in (0x10, 0x11):  # JAL, BLTZAL and BGEZAL
        places = [31]
    return [place for place in places if place != 0]


def texts_of(name):
    """The instructions of a module by address, as cc100 list has them: mnemonic and operands."""
    texts = {}
    for line in run(["list", name]).out.decode().splitlines():
        if line:
            texts[int(line[7:17], 16)] = (line[31:].split("  (")[0].split() + [""])[:2]
    return texts


def line_of(step, count, text):
    mnemonic, operands = text
    begin = "%7d  0x%08x  %s|" % (count, step.address, (mnemonic.ljust(8) + operands).ljust(28))
    if step.exit:
        return begin + " exit %d, %s\n" % (step.exit, EXITS[step.exit])
    written = ",".join(" %s = 0x%08x" % (NAMES[place], step.registers[place]) for place in destinations(step.word))
    access = (" " if not written else "; ") + access_text(step.access) if step.access else ""
    return begin + written + access + "\n"


def object_of(step, count, text):
    members = {"event": "step", "steps": count, "address": step.address, "word": step.word, "instruction": " ".join(text).strip()}
    if step.exit:
        members["exit"] = step.exit
    else:
        members["written"] = {NAMES[place]: step.registers[place] for place in destinations(step.word)}
    return {**members, "access": access_object(step.access)}


def expected_run(name, words, run_by, figures):
    """Status, lines and objects of a whole run, from the emulator's steps: an exit that is not the last step is SYSCALL 0, and gets
    a figure."""
    texts, count, given = texts_of(name), 0, 0
    lines, objects = [placed(words)], [start_object(name, words)]
    for i, step in enumerate(run_by.steps):
        count += step.exit is None
        lines.append(line_of(step, count, texts[step.address]))
        objects.append(object_of(step, count, texts[step.address]))
        if step.exit and i < len(run_by.steps) - 1:
            lines.append(after(count, step.address) + "asks for a figure, gets %d for place %d\n" % (figures[given], 4 * given))
            objects.append({"event": "figure", "steps": count, "address": step.address, "place": 4 * given, "figure": figures[given]})
            given += 1
    status = add_end(lines, objects, run_by, count, given == len(figures))
    return status, "".join(lines), "".join(json.dumps(o, separators=(",", ":")) + "\n" for o in objects)


def add_end(lines, objects, run_by, count, none_left):
    """The lines and the object of a run's end. At a SYSCALL, the code is bits 25 to 6."""
    last = run_by.steps[-1] if run_by.steps else Step(0, 0, None, None, None)
    access = next((step.access for step in reversed(run_by.steps) if step.access), None)
    code = last.word >> 6 & 0xFFFFF
    if not last.exit:
        lines.append(after(count, run_by.next) + spent(access))
        objects.append(end_object(False, count, run_by.next, 0, None, access))
        return REFUSED
    if last.exit == 46 and (code == 1 or code == 0 and none_left):
        lines.append(after(count, last.address) + (COMPLETE if code else NONE_LEFT) + data_text(run_by.data))
        objects.append(end_object(True, count, last.address, 46, "System Call", access, code=code, data=run_by.data))
        return DONE
    what = "System Call %d, which is not served here" % code if last.exit == 46 else EXITS[last.exit]
    lines.append(after(count, last.address) + what + incomplete(access))
    objects.append(end_object(False, count, last.address, last.exit, EXITS[last.exit], access, **({"code": code} if last.exit == 46 else {})))
    return REFUSED


def expect_steps(name, words, figures, budget=BUDGET):
    """Runs a module in both forms. Gives the emulator's steps."""
    run_by = emulated(name, budget, figures)
    arguments = ["run", "--steps", name, "--budget", str(budget)]
    if figures:
        arguments += ["--figures", write("tried.figures", "\n".join(str(figure) for figure in figures))]
    status, text, objects = expected_run(name, words, run_by, figures)
    expect(arguments, status, text)
    expect(arguments + ["--json"], status, objects)
    return run_by.steps


def test_samples():
    figures = [1250, 980, 4999, 315]
    expect_steps("samples/m.module", 8, figures)
    expect_steps("samples/m.module", 8, [])
    expect_steps("samples/m.module", 8, [-1, 2147483647, -2147483648])
    expect_steps("samples/overflow.module", 8, figures)
    expect_steps("samples/overflow.module", 8, [2047])
    expect_steps("samples/margin.module", 64, [])


def kind_of(word):
    """An instruction's number, by the drawings of docs/INSTRUCTIONS.md."""
    bits = format(word, "032b")
    for number, drawing in enumerate(ENCODINGS, 1):
        if all(d not in "01" or d == b for d, b in zip(drawing.replace(" ", ""), bits)):
            return number
    return 0


def drawn(rng, number, **given):
    """A word of an instruction; fields that are not given are random, registers among 1 to 12 and now and then 0, 13 or 31."""
    def bits(field):
        letter, width = field[1], len(field[0])
        chosen = rng.choice((*range(1, 13), 0, 13, 31)) if letter in "std" else rng.getrandbits(width)
        return format(given.get(letter, chosen), "0%db" % width)

    return int(re.sub(r"([a-z])\1*", bits, ENCODINGS[number - 1].replace(" ", "")), 2)


# The numbers of docs/INSTRUCTIONS.md, by what a module may do with them.
SUMS = [1, 2, 54]
PLAIN = [3, 4, 5, 6, 16, 17, 27, 30, 31, 33, 34, 35, 36, 37, 38, 39, 44, 45, 46, 47, 48, 49, 50, 51, 52, 53, 55, 57, 71, 72]
TRAPS = [59, 60, 61, 62, 63, 64, 65, 66, 67, 68, 69, 70]
BRANCHES = [7, 8, 9, 10, 11, 12, 13, 14]
STORES = {41, 42, 43, 56}
ACCESSES = {22: 1, 23: 1, 24: 2, 25: 2, 26: 4, 28: 4, 41: 1, 42: 4, 43: 2, 56: 4}
NEVER_IN_A_MODULE = {29, 32, 40}  # MFC0, MTC0 and RFE


def plain(rng):
    """An instruction that goes on to the next, mostly: a sum may overflow, and a trap be met."""
    chance = rng.random()
    if chance < 0.04:
        return drawn(rng, rng.choice(TRAPS))
    if chance < 0.045:
        return rng.choice((0x0000004C, drawn(rng, 15, v=16), drawn(rng, 58)))
    if chance < 0.06:
        return 0x0000000C
    if chance < 0.10:
        return drawn(rng, rng.choice(SUMS))
    return drawn(rng, rng.choice(PLAIN))


def guarded(rng, size):
    """ANDI R,S,m; OR R,R,26 or 27; and an access, JR or JALR."""
    register = rng.choice((1, 2, 5, 12, 13, 31))
    if rng.random() < 0.2:
        jump = rng.choice((register << 21 | 8, register << 21 | rng.choice([r for r in (0, 3, 4, 30) if r != register]) << 11 | 9))
        return [0x30000000 | rng.randrange(26) << 21 | register << 16 | size - 16, register << 21 | 27 << 16 | register << 11 | 0x25, jump]
    number = rng.choice(list(ACCESSES) + [26, 26, 42, 42])
    width = ACCESSES[number]
    mask = (4 << rng.randrange(4)) - width
    return [0x30000000 | rng.randrange(26) << 21 | register << 16 | mask, register << 21 | 26 << 16 | register << 11 | 0x25,
            drawn(rng, number, s=register, v=rng.randrange(0, 28) // width * width)]


def branch(rng, index, count):
    """To the beginning of a bundle, which no rule forbids."""
    target = 4 * rng.choice((rng.randrange(count // 4), rng.randrange(index // 4 + 1, count // 4)))
    if rng.random() < 0.3:
        return 0x08000000 | rng.randrange(2) << 26 | (CODE_BASE >> 2) + target
    return drawn(rng, rng.choice(BRANCHES), s=rng.randrange(13), v=(target - index - 1) & 0xFFFF)


def random_module(rng, count, first):
    """Registers 1 to 12 begin with something. Then come an instruction that is given, and bundles of a guard, of a branch and its
    slot, or of plain words."""
    words = []
    for register in range(1, 13):
        words.append(rng.choice((0x24000000, 0x3C000000)) | register << 16 | rng.getrandbits(16))
    words += [first] + [plain(rng) for _ in range(3)]
    while len(words) < count - 4:
        what, index = rng.random(), len(words)
        if what < 0.5:
            three = guarded(rng, 4 * count)
            words += three + [plain(rng)] if three[2] >> 26 == 0 or what < 0.25 else [plain(rng)] + three
        elif what < 0.65:
            words += [plain(rng), branch(rng, index + 1, count), plain(rng), plain(rng)]
        else:
            words += [plain(rng) for _ in range(4)]
    return words + [plain(rng), plain(rng), JUMP, plain(rng)]


def test_random_modules():
    """All kinds are met that an accepted module can have, and each of these: a value written that was there before, SC that stores
    and that does not, a linking branch that is not taken."""
    rng, met, special, accesses = random.Random(20261116), set(), collections.Counter(), set()
    for i in range(MODULES):
        first = drawn(rng, TRAPS[i]) if i < len(TRAPS) else plain(rng)
        name = write("tried.module", struct.pack("<64I", *random_module(rng, 64, first)))
        figures = [rng.getrandbits(32) - 2 ** 31 for _ in range(rng.randrange(6))]
        steps = expect_steps(name, 64, figures, rng.randint(100, BUDGET))
        met.update(kind_of(step.word) for step in steps)
        accesses.update((kind_of(step.word),) + step.access[1:] for step in steps if step.access)
        special.update(what for before, step in zip(steps, steps[1:]) for what in specials(before, step))
    equal("run --steps", "the kinds that were not met", NEVER_IN_A_MODULE, set(range(1, 73)) - met)
    equal("run --steps", "accesses that were met", {(kind, width, "store" if kind in STORES else "load") for kind, width in ACCESSES.items()},
          accesses)
    equal("run --steps", "what was met besides", ["SC 0", "SC 1", "link without a branch", "same value"], sorted(special))


def specials(before, step):
    if step.exit or before.exit:
        return
    kind = kind_of(step.word)
    if kind == 42:
        yield "SC %d" % (step.access is not None)
    if kind in (9, 13) and (step.registers[step.word >> 21 & 31] >> 31) == (kind == 9):
        yield "link without a branch"
    if any(before.registers[place] == step.registers[place] for place in destinations(step.word)):
        yield "same value"


def same_values(steps):
    """The kinds of the steps that wrote, and left all that they wrote as it was."""
    return {kind_of(step.word) for before, step in zip(steps, steps[1:]) if not step.exit and destinations(step.word)
            and all(before.registers[place] == step.registers[place] for place in destinations(step.word))}


def test_same_values():
    """Each instruction that writes, where the value is there already. Register 1 is read and 20 written, and each word comes twice;
    SC comes once more, since it stores only the first time. Links are the same when the same word is met again, with the code area
    of four words as a loop."""
    rng, words = random.Random(20261116), [0x24010005]
    for number in SUMS + PLAIN:
        word = drawn(rng, number, s=1, t=1, d=20)
        words += 2 * [drawn(rng, number, s=1, t=20 if word >> 26 in RT_OPCODES else 1, d=20, v=7, h=3)]
    words += [0] * (-len(words) % 4)
    for number in [22, 22, 23, 23, 24, 24, 25, 25, 28, 28, 26, 26, 42, 42, 42]:
        words += [0x30080000, 0x011A4025, drawn(rng, number, s=8, t=20, v=0), 0]
    met = same_values(expect_steps(module(words + [TRAP], 1024), 256, []))
    for loop in ([0, 0, 0x0C004000], [0x0411FFFF], [0x0410FFFF], [0x30050000, 0x00BB2825, 0x00A0A809]):
        met |= same_values(expect_steps(module(loop), 4, [], 9))
    linking = {9, 13, 19, 20}
    equal("run --steps", "kinds that wrote what was there", (set(SUMS + PLAIN) - {57}) | {22, 23, 24, 25, 26, 28, 42} | linking, met)


# A Trap, SYSCALL and others apart, what a step can write: each line is worked out by hand.
WRITTEN = [
    (0x24050007, "addiu   $5,$0,7             | $5 = 0x00000007"),
    (0x24060000, "addiu   $6,$0,0             | $6 = 0x00000000"),
    (0x00A6001A, "div     $0,$5,$6            | hi = 0x00000007, lo = 0xffffffff"),  # by 0: hi is $5, lo all ones (02, Ticket 4)
    (0x24000009, "addiu   $0,$0,9             |"),
    (0x30080000, "andi    $8,$0,0x0           | $8 = 0x00000000"),
    (0x011A4025, "or      $8,$8,$26           | $8 = 0x00020000"),
    (0xC1090000, "ll      $9,0($8)            | $9 = 0x00000000; load of 4 bytes at 0x20000, place 0"),
    (0x00A00011, "mthi    $5                  | hi = 0x00000007"),
    (0x30080000, "andi    $8,$0,0x0           | $8 = 0x00000000"),
    (0x011A4025, "or      $8,$8,$26           | $8 = 0x00020000"),
    (0xE1050000, "sc      $5,0($8)            | $5 = 0x00000001; store of 4 bytes at 0x20000, place 0"),  # it stores 7
    (0x00A00013, "mtlo    $5                  | lo = 0x00000001"),
    (0x04B00001, "bltzal  $5,0x10038          | $31 = 0x00010038"),  # not taken; the link is PC + 8
    (0x0000000F, "sync                        |"),
    (0x0C004014, "jal     0x10050             | $31 = 0x00010040"),
    (0x00A50018, "mult    $5,$5               | hi = 0x00000000, lo = 0x00000001"),
    (0x30080000, "andi    $8,$0,0x0           | $8 = 0x00000000"),  # word 20
    (0x011A4025, "or      $8,$8,$26           | $8 = 0x00020000"),
    (0x8D0A0000, "lw      $10,0($8)           | $10 = 0x00000007; load of 4 bytes at 0x20000, place 0"),
    (0x240B007C, "addiu   $11,$0,124          | $11 = 0x0000007c"),
    (0x31650070, "andi    $5,$11,0x70         | $5 = 0x00000070"),
    (0x00BB2825, "or      $5,$5,$27           | $5 = 0x00010070"),
    (0x00A01809, "jalr    $3,$5               | $3 = 0x00010070"),
    (0x00A62021, "addu    $4,$5,$6            | $4 = 0x00010070"),
    (0x3C077FFF, "lui     $7,0x7fff           | $7 = 0x7fff0000"),  # word 28
    (0x00E74820, "add     $9,$7,$7            | exit 40, Integer Overflow"),
]
PLACES = [*range(16), *range(20, 30)]  # the words of these steps


def written_module():
    words = [0] * 30 + [JUMP, 0]
    for place, (word, _) in zip(PLACES, WRITTEN):
        words[place] = word
    return module(words, 128, "written.module")


def written_lines(count):
    """The exit is not counted as a step."""
    return "".join("%7d  0x%08x  %s\n" % (min(i + 1, 25), CODE_BASE + 4 * place, text) for i, (place, (_, text)) in
                   enumerate(zip(PLACES[:count], WRITTEN)))


def test_lines():
    name = written_module()
    ended = after(25, 0x10074) + "Integer Overflow" + incomplete((0, 4, "load"))
    expect(["run", "--steps", name], REFUSED, placed(32) + written_lines(26) + ended)
    # the next step after 15 is JAL's slot, and after 16 its target; LL is step 7, SC step 11 and LW step 19
    for budget, word, what in ((0, 0, ""), (1, 1, ""), (6, 6, ""), (7, 7, "load"), (15, 15, "store"), (16, 20, "store"), (25, 29, "load")):
        expect(["run", "--steps", name, "--budget", str(budget)], REFUSED, placed(32) + written_lines(budget)
               + after(budget, CODE_BASE + 4 * word) + spent((0, 4, what) if what else None))
    expect(["run", "--steps", name, "--budget", "26"], REFUSED, placed(32) + written_lines(26) + ended)


def test_whole_text():
    expect("run samples/m.module --steps", DONE, """\
8 words of code at 0x10000, 64 bytes of data at 0x20000
      1  0x00010000  andi    $8,$8,0x3c          | $8 = 0x00000000
      2  0x00010004  or      $8,$8,$26           | $8 = 0x00020000
      3  0x00010008  sw      $9,0($8)            | store of 4 bytes at 0x20000, place 0
      3  0x0001000c  syscall                     | exit 46, System Call
after 3 steps, at 0x1000c: asks for a figure, none are left; the report is complete
data: 0 0 0 0 0 0 0 0 0 0 0 0 0 0 0 0
""")
    expect(["run", "samples/m.module", "--steps", "--budget", "6", "--figures", write("tried.figures", "-2")], REFUSED, """\
8 words of code at 0x10000, 64 bytes of data at 0x20000
      1  0x00010000  andi    $8,$8,0x3c          | $8 = 0x00000000
      2  0x00010004  or      $8,$8,$26           | $8 = 0x00020000
      3  0x00010008  sw      $9,0($8)            | store of 4 bytes at 0x20000, place 0
      3  0x0001000c  syscall                     | exit 46, System Call
after 3 steps, at 0x1000c: asks for a figure, gets -2 for place 0
      4  0x00010010  nop                         |
      5  0x00010014  nop                         |
      6  0x00010018  j       0x10000             |
after 6 steps, at 0x1001c: still running, and its budget is spent; the report is not complete
last access: store of 4 bytes at 0x20000, place 0 of the data area
""")


def test_object_bytes():
    expect("run samples/m.module --steps --json --budget 3", REFUSED,
           '{"event":"start","file":"samples/m.module","words":8,"code_base":65536,"data_base":131072,"data_size":64}\n'
           '{"event":"step","steps":1,"address":65536,"word":822607932,"instruction":"andi $8,$8,0x3c","written":{"$8":0},"access":null}\n'
           '{"event":"step","steps":2,"address":65540,"word":18497573,"instruction":"or $8,$8,$26","written":{"$8":131072},"access":null}\n'
           '{"event":"step","steps":3,"address":65544,"word":2903048192,"instruction":"sw $9,0($8)","written":{},'
           '"access":{"address":131072,"place":0,"width":4,"store":true}}\n'
           '{"event":"end","complete":false,"steps":3,"address":65548,"number":0,"exit":null,'
           '"access":{"address":131072,"place":0,"width":4,"store":true}}\n')
    expect(["run", "--json", "--steps", module([0x00000018, 0x0000004D])], REFUSED,
           '{"event":"start","file":"tried.module","words":4,"code_base":65536,"data_base":131072,"data_size":64}\n'
           '{"event":"step","steps":1,"address":65536,"word":24,"instruction":"mult $0,$0","written":{"hi":0,"lo":0},"access":null}\n'
           '{"event":"step","steps":1,"address":65540,"word":77,"instruction":"break 0x1","exit":47,"access":null}\n'
           '{"event":"end","complete":false,"steps":1,"address":65540,"number":47,"exit":"Breakpoint","access":null}\n')
