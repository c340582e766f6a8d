"""cc100 run --straight: runs of straight-through modules to their last bundle, their bound, and what samples/totals.module makes of tables."""
import json
import random

from modules import CODE_BASE, JUMP, LARGEST, TRAP as TRAP_WORD, straight_words, write_words
from program import DONE, REFUSED, equal, expect, write
from rows import CELLS, HEADING, LIMITS, OVERFLOW, TABLES, TRAP, fits, number_line, random_rows, row_object
from running import (COMPLETE, NONE_LEFT, SYSCALL_0, SYSCALL_1, after, data_text, end_object, incomplete, placed, refused, refused_object, spent,
                     start_object)
from steps import EXITS, emulated, guarded, plain

TOTALS = ["run", "--straight", "samples/totals.module", "--rows"]
WORDS, MOST, END = 128, 124, 0x101F0  # of the sample: its words, its bound, and where its last bundle starts
MODULES = 100


def module(words, length=16):
    return write_words(straight_words(words, length))


def most_of(length):
    return length // 4 - 4


def last_of(length):
    """The address of the last bundle's start."""
    return CODE_BASE + length - 16


def expect_objects(arguments, status, *objects):
    expect(arguments, status, "".join(json.dumps(members, separators=(",", ":")) + "\n" for members in objects))


def started(name, words):
    return {**start_object(name, words), "most_steps": words - 4}


def test_sizes():
    """Every size from the smallest, of zeros: the bound is reached exactly, and is a budget too small by the step that exits."""
    for length in (16, 32, 64, 1024, LARGEST):
        name, most, at = module([], length), most_of(length), last_of(length)
        run = ["run", "--straight", name, "--budget"]
        for budget in (most + 1, 1000000):
            expect(run + [str(budget)], DONE, placed(length // 4) + after(most, at, most) + COMPLETE + data_text([]))
        expect(run + [str(most)], REFUSED, placed(length // 4) + after(most, at, most) + spent())
        expect(["run", name], DONE, placed(length // 4) + after(most, at) + NONE_LEFT + data_text([]))


# The first words of a module of eight, and what ends its run before the last bundle, after how many steps and at which word.
ENDINGS = [
    ([0, TRAP_WORD], 1, 1, "Trap"),
    ([0x0000004D], 0, 0, "Breakpoint"),
    ([0x3C057FFF, 0x00A52820], 1, 1, "Integer Overflow"),
    ([0, 0, 0x0000008C], 2, 2, "System Call 2, which is not served here"),
    ([0x10000002, 0, TRAP_WORD, 0x0000004D], 2, 3, "Breakpoint"),  # BEQ to word 3
]


def test_endings():
    for words, steps, index, what in ENDINGS:
        expect(["run", "--straight", module(words, 32)], REFUSED, placed(8) + after(steps, CODE_BASE + 4 * index, 4) + what + incomplete())


def test_system_calls():
    """SYSCALL 0 asks for a figure but in the last bundle, where figures that are left do not matter, and SYSCALL 1 ends a report."""
    name = module([SYSCALL_0, 0, SYSCALL_0], 32)
    run = ["run", "--straight", name]
    first, second = after(0, 0x10000, 4), after(1, 0x10008, 4)
    expect(run, DONE, placed(8) + first + NONE_LEFT + data_text([]))
    write("tried.figures", "5")
    expect(run + ["--figures", "tried.figures"], DONE, placed(8) + first + "asks for a figure, gets 5 for place 0\n" + second + NONE_LEFT
           + data_text([]))
    write("tried.figures", "5 6 7")
    given = first + "asks for a figure, gets 5 for place 0\n" + second + "asks for a figure, gets 6 for place 4\n"
    expect(run + ["--figures", "tried.figures"], DONE, placed(8) + given + after(2, 0x10010, 4) + COMPLETE + data_text([]))
    write("tried.rows", "7 8 9\n")
    # ADDIU 8,0,11 and ADDIU 9,0,250: at SYSCALL 1 there is a rate, and at the last bundle none
    for call, steps, at, rate in ((SYSCALL_1, 2, 0x10008, ", rate 2.50 %"), (0, 4, 0x10010, "")):
        name = module([0x2408000B, 0x240900FA, call], 32)
        expect(["run", "--straight", name, "--rows", "tried.rows"], DONE, placed(8) + after(steps, at, 4) + COMPLETE + HEADING
               + number_line((7, 8, 9, 0)) + "total margin 11%s\n" % rate)
        expect(["run", "--straight", name], DONE, placed(8) + after(steps, at, 4) + COMPLETE + data_text([]))
        end = end_object(True, steps, at, 46, "System Call", code=1 if rate else 0, rows=[row_object((7, 8, 9, 0))], total=11,
                         **({"rate": 250} if rate else {}))
        expect_objects(["run", "--straight", "--json", name, "--rows", "tried.rows"], DONE, started(name, 8), end)


def test_refusals():
    """Modules that loop, or end otherwise, are refused here and run without the option: document 02's numbers, with their places."""
    expect("run --straight samples/margin.module --rows missing", REFUSED, "", refused("samples/margin.module", 20, 30))
    expect("run --straight samples/m.module", REFUSED, "", refused("samples/m.module", 20, 6))
    cases = [(20, 0, [0x1000FFFF] + [0] * 3 + straight_words([], 32)[4:]), (21, None, [0] * 4 + [SYSCALL_1] + straight_words([], 32)[5:]),
             (20, 6, [0] * 6 + [JUMP, 0]), (12, 1, [TRAP_WORD, 0xAD090000] + straight_words([], 32)[2:])]
    for number, place, words in cases:
        name = write_words(words)
        expect(["run", "--straight", name], REFUSED, "", refused(name, number, place))
        expect(["run", "--straight", "--json", name], REFUSED, refused_object(name, number, place), refused(name, number, place))


def test_whole_text():
    """Worked out by hand: word 0, four rows of 24 steps, J and its slot. Without rows each is left out after 5 steps. In the second table
    1500000 * 2500 does not fit, and TNE at word 44 is the Trap: word 0, a row, and 19 steps."""
    expect(TOTALS + ["samples/margin.rows"], DONE, """\
128 words of code at 0x10000, 64 bytes of data at 0x20000
after 99 steps of at most 124, at 0x101f0: the report is complete
    quantity        cost       price      margin
         240         835        1250       99600
          96        1180         980      -19200
         500        3420        4999      789500
        1200         207         315      129600
total margin 999500
""")
    expect(TOTALS + ["samples/too_large.rows"], REFUSED, """\
128 words of code at 0x10000, 64 bytes of data at 0x20000
after 44 steps of at most 124, at 0x100b0: Trap; the report is not complete
last access: load of 4 bytes at 0x20018, place 24 of the data area, the price of row 2
""")
    expect(TOTALS[:-1], DONE, placed(WORDS) + after(21, END, MOST) + COMPLETE + data_text([]))


def test_object_bytes():
    expect(TOTALS + [write("tried.rows", "1 1005 1000\n0 7 8\n"), "--json"], DONE,
           '{"event":"start","file":"samples/totals.module","words":128,"code_base":65536,"data_base":131072,"data_size":64,"most_steps":124}\n'
           '{"event":"end","complete":true,"steps":40,"address":66032,"number":46,"exit":"System Call","code":0,'
           '"access":{"address":131120,"place":48,"width":4,"store":false},'
           '"rows":[{"quantity":1,"cost":1005,"price":1000,"margin":-5},{"quantity":0,"cost":7,"price":8,"margin":0}],"total":-5}\n')


def calculated(rows):
    """How samples/totals.module ends: steps, address and what stops it, with its last access; or steps, the margins and the total, with its
    last access. Row k has its words from 1 + 24 * k on: the quantity's load is the third, SUB the fifteenth, the Trap the twentieth, the
    store the twenty-third and ADD the last. A row that is left out has five steps: its first guard and load, BEQ and its slot."""
    steps, total, margins, access = 1, 0, [], None
    for k, (quantity, cost, price) in enumerate(rows + [(0, 0, 0)] * (4 - len(rows))):
        word = 1 + 24 * k
        if quantity == 0:
            steps, access = steps + 5, (16 * k, 4, "load")
            margins.append(0)
            continue
        access = (16 * k + 8, 4, "load")
        if not fits(price - cost):
            return steps + 14, CODE_BASE + 4 * (word + 14), OVERFLOW, access
        if not fits((price - cost) * quantity):
            return steps + 19, CODE_BASE + 4 * (word + 19), TRAP, access
        margins.append((price - cost) * quantity)
        total, access = total + margins[-1], (16 * k + 12, 4, "store")
        if not fits(total):
            return steps + 23, CODE_BASE + 4 * (word + 23), OVERFLOW, access
        steps += 24 if k < 3 else 26  # J and its slot follow the last row
    return steps, margins, total, access


def expect_totals(rows, as_objects):
    """Gives how the run must end."""
    came = calculated(rows)
    arguments = TOTALS + [write("tried.rows", "".join("%d %d %d\n" % row for row in rows))]
    if came[2] in (OVERFLOW, TRAP):
        steps, address, what, access = came
        row, cell = divmod(access[0], 16)
        status, end = REFUSED, end_object(False, steps, address, {OVERFLOW: 40, TRAP: 48}[what], what, access)
        text = after(steps, address, MOST) + what + incomplete(access, cell=", the %s of row %d" % (CELLS[cell // 4], row + 1))
    else:
        steps, margins, total, access = came
        table = [row + (margin,) for row, margin in zip(rows, margins)]
        status, what = DONE, "complete"
        end = end_object(True, steps, END, 46, "System Call", access, code=0, rows=[row_object(row) for row in table], total=total)
        text = after(steps, END, MOST) + COMPLETE + HEADING + "".join(number_line(row) for row in table) + "total margin %d\n" % total
    if as_objects:
        expect_objects(arguments + ["--json"], status, started("samples/totals.module", WORDS), end)
    else:
        expect(arguments, status, placed(WORDS) + text)
    return what


def test_random_tables():
    """One row in eight has no quantity."""
    rng, met = random.Random(20261117), {}
    tables = [[tuple(0 if i == 0 and rng.random() < 1 / 8 else n for i, n in enumerate(row)) for row in random_rows(rng)] for _ in range(TABLES)]
    for i, rows in enumerate([[row] for row in LIMITS] + tables):
        what = expect_totals(rows, i % 2 == 1)
        met[what] = met.get(what, 0) + 1
    for what, least in (("complete", TABLES // 10), (TRAP, TABLES // 10), (OVERFLOW, TABLES // 100)):
        equal(TOTALS, "%s is often met" % what, True, met.get(what, 0) >= least)


def random_bundle(rng, index, count):
    """Four words: an access with its guard, a branch ahead to the beginning of a bundle, or plain words."""
    what = rng.random()
    if what < 0.4:
        three = guarded(rng, 4 * count)
        return three + [plain(rng)] if three[2] >> 26 else [plain(rng) for _ in range(4)]
    if what < 0.7:
        target = 4 * rng.randrange(index // 4 + 1, count // 4)
        jump = 0x08000000 | rng.randrange(2) << 26 | (CODE_BASE >> 2) + target
        return [plain(rng), rng.choice([jump, 0x10000000 | target - index - 2, 0x14200000 | target - index - 2]), plain(rng), plain(rng)]
    return [plain(rng) for _ in range(4)]


def test_random_modules():
    """Beside the second emulator, whose steps are also at most the bound. Registers 1 to 12 begin with something."""
    rng, met = random.Random(20261117), set()
    for _ in range(MODULES):
        count = rng.choice((16, 32, 64, 128))
        words = [rng.choice((0x24000000, 0x3C000000)) | register << 16 | rng.getrandbits(16) for register in range(1, 13)]
        while len(words) < count - 4:
            words += random_bundle(rng, len(words), count)
        name = module(words, 4 * count)
        run_by = emulated(name, 2 * count, [])
        last, steps = run_by.steps[-1], len(run_by.steps) - 1
        access = next((step.access for step in reversed(run_by.steps) if step.access), None)
        code, at_end = last.word >> 6 & 0xFFFFF, last.address == last_of(4 * count)
        begin, arguments = placed(count) + after(steps, last.address, count - 4), ["run", "--straight", name]
        if last.exit == 46 and code < 2:
            expect(arguments, DONE, begin + (COMPLETE if code or at_end else NONE_LEFT) + data_text(run_by.data))
        else:
            what = "System Call %d, which is not served here" % code if last.exit == 46 else EXITS[last.exit]
            expect(arguments, REFUSED, begin + what + incomplete(access))
        equal(arguments, "steps are at most the bound", True, steps <= count - 4)
        met.add("the last bundle" if at_end else last.exit)
    equal("run --straight", "ends that were met", {"the last bundle", 40, 46, 47, 48}, met)
