"""cc100 run: how runs begin, go on and end, with figures, budgets and layouts; the rows of a table are another subject."""
import json
import os
import re

from modules import DATA_BASE, DATA_SIZE, JUMP, LARGEST, TRAP, image, module
from program import DONE, NOT_DONE, REFUSED, expect, write

HERE = os.path.dirname(os.path.abspath(__file__))
COMPLETE = "the report is complete\n"
NONE_LEFT = "asks for a figure, none are left; " + COMPLETE
M = [0x3108003C, 0x011A4025, 0xAD090000, 0x0000000C, 0, 0, JUMP, 0]
SYSCALL_0, SYSCALL_1 = 0x0000000C, 0x0000004C

with open("docs/REFUSALS.md", encoding="utf-8") as file:
    MEANINGS = {int(number): meaning for number, meaning in re.findall(r"^\| (\d+) \| ([^|]+) \|", file.read(), re.M)}


def placed(words, code_base="0x10000", data_size=DATA_SIZE, data_base="0x20000"):
    return "%d words of code at %s, %d bytes of data at %s\n" % (words, code_base, data_size, data_base)


def after(steps, address, most=None):
    """Where a run stands; of a straight-through module, with the most steps that there can be."""
    return "after %d steps%s, at 0x%x: " % (steps, "" if most is None else " of at most %d" % most, address)


def access_text(access, data_base=DATA_BASE):
    """An access is its place in the data area, its width and what it is."""
    place, width, what = access
    return "%s of %s at 0x%x, place %d" % (what, "1 byte" if width == 1 else "%d bytes" % width, data_base + place, place)


def incomplete(access=None, data_base=DATA_BASE, cell=""):
    """The end of a run that is stopped, with its last access; in a table, the cell follows."""
    last = access_text(access, data_base) + " of the data area" + cell if access else "none"
    return "; the report is not complete\nlast access: %s\n" % last


def spent(access=None, cell=""):
    return "still running, and its budget is spent" + incomplete(access, cell=cell)


def data_text(words, count=DATA_SIZE // 4):
    """The words of the data area, 16 a line; those that are not given are 0."""
    texts = [str(word % 2 ** 32) for word in list(words) + [0] * (count - len(words))]
    return "data: " + "\n      ".join(" ".join(texts[i:i + 16]) for i in range(0, count, 16)) + "\n"


def refused(name, number, place=None, how="is refused"):
    at = "" if place is None else " at word %d" % place
    return "cc100: %s %s, number %d%s: %s\n" % (name, how, number, at, MEANINGS[number])


def stored(name):
    with open(os.path.join(HERE, name), encoding="utf-8") as file:
        return file.read()


def m_text(figures, start=placed(8), at=0x1000C):
    """What M prints: three steps lead to its SYSCALL, and then seven from one to the next: the two words after it, J and its slot,
    and the first three words again. What it stores first, before it has a figure, the first figure replaces."""
    lines = "".join(after(3 + 7 * i, at) + "asks for a figure, gets %d for place %d\n" % (figure, 4 * i)
                    for i, figure in enumerate(figures))
    return start + lines + after(3 + 7 * len(figures), at) + NONE_LEFT


def test_samples():
    """samples/overflow.module adds figures up in register 10, which it starts 2047 below the largest number, so that the second
    figure does not fit: LUI 10,0x7FFF; ORI 10,10,0xF800; SYSCALL 0; ADD 10,10,9; two words that do nothing; J 0x10008; and a last
    one in its slot."""
    expect("run samples/m.module --figures samples/m.figures", DONE, stored("m.expected"))
    expect("run samples/overflow.module --figures samples/m.figures", REFUSED, stored("overflow.expected"))
    expect("run samples/refused.module", REFUSED, "", refused("samples/refused.module", 22, 0))
    expect("run samples/holes.module", REFUSED, "", refused("samples/holes.module", 25, 0))
    expect("run samples/forgotten.module", REFUSED, "", refused("samples/forgotten.module", 12, 3))
    # with 128 bytes of data its mask of 0x7C fits, and register 8 and all data are 0
    expect("run samples/refused.module --data-size 128", DONE, placed(8, data_size=128) + after(3, 0x1000C) + NONE_LEFT + data_text([], 32))


def test_refused_start():
    """A module is accepted and its start refused, which this command does not come to by itself: the number is said, and nothing is run."""
    try:
        for number in (17, 26, 27):
            os.environ["START"] = "%d" % number
            said = refused("samples/m.module", number, how="cannot be started")
            expect("run samples/m.module", REFUSED, "", said, program="refusing")
            expect("run samples/m.module --steps --json", REFUSED, refused_object("samples/m.module", number, None), said, program="refusing")
            expect("run samples/m.module --straight", REFUSED, "", refused("samples/m.module", 20, 6), program="refusing")
    finally:
        os.environ.pop("START", None)


def test_no_module():
    usage = "\nusage: cc100 run [OPTION]... FILE\n'cc100 run --help' says more\n"
    expect("run", NOT_DONE, "", "cc100 run: no file is named" + usage)
    expect("run samples/m.module samples/margin.rows", NOT_DONE, "", "cc100 run: 'samples/margin.rows' is one file too many" + usage)
    expect("run samples/missing.module", NOT_DONE, "", "cc100: cannot open samples/missing.module: No such file or directory\n")
    expect("run samples", NOT_DONE, "", "cc100: cannot read samples: Is a directory\n")
    for length in (0, 1, 8, 15, 17, 24, 48, 65520, LARGEST + 1, 2 * LARGEST):
        write("tried.module", image([], length) if length % 4 == 0 else bytes(length))
        expect("run tried.module", REFUSED, "", refused("tried.module", 2))


def test_largest_and_smallest():
    """61 times through all 16,384 words, and 576 more; 250,000 times through four."""
    expect(["run", module([], LARGEST)], REFUSED, placed(16384) + after(1000000, 0x10900) + spent())
    expect(["run", module([], 16)], REFUSED, placed(4) + after(1000000, 0x10000) + spent())


# The first two words of a module of four, and what ends its run.
ENDINGS = [
    ([0, TRAP], 1, 0x10004, "Trap"),
    ([0, 0x0000004D], 1, 0x10004, "Breakpoint"),                    # BREAK 1
    ([0x0000000D], 0, 0x10000, "Breakpoint"),                       # BREAK 0
    ([0x03FFFFCD], 0, 0x10000, "Breakpoint"),                       # BREAK with the largest code
    ([0x3C057FFF, 0x00A52820], 1, 0x10004, "Integer Overflow"),     # LUI 5,0x7FFF; ADD 5,5,5
    ([0x3C058000, 0x20A5FFFF], 1, 0x10004, "Integer Overflow"),     # LUI 5,0x8000; ADDI 5,5,-1
    ([0x3C058000, 0x00052822], 1, 0x10004, "Integer Overflow"),     # LUI 5,0x8000; SUB 5,0,5
    ([0x0000008C], 0, 0x10000, "System Call 2, which is not served here"),
    ([0, 0x000003CC], 1, 0x10004, "System Call 15, which is not served here"),
    ([0x03FFFFCC], 0, 0x10000, "System Call 1048575, which is not served here"),
]


def test_endings():
    for words, steps, address, what in ENDINGS:
        expect(["run", module(words)], REFUSED, placed(4) + after(steps, address) + what + incomplete())
    # a slot: words 0 to 2 and then the Trap at word 3, which is J's slot
    expect(["run", module([0, 0, JUMP, TRAP])], REFUSED, placed(4) + after(3, 0x1000C) + "Trap" + incomplete())


# The first two words of modules that are refused. They are not run: the first word would end any of them by a Trap.
REFUSALS = [
    (8, 1, 0xFFFFFFFF), (9, 1, 0x42000010), (10, 1, 0x3C1A0000), (11, 1, 0x00A02809), (12, 1, 0xAD090000), (13, 1, 0x03E00008),
    (14, 2, JUMP), (15, 1, 0x08004003),
]
WRONG_LAYOUTS = [
    (1, ["--memory-length", "16777217"]), (2, ["--code-size", "24"]), (3, ["--data-size", "2"]), (4, ["--code-base", "0x10008"]),
    (5, ["--data-base", "0x30000"]), (6, ["--data-base", "0x10000"]), (7, ["--code-size", "32"]),
    (1, ["--memory-length", "0xFFFFFFFFFFFFFFFF"]), (4, ["--memory-length", "0"]),
]


def test_refusals():
    for number, place, word in REFUSALS:
        expect(["run", module([TRAP, word])], REFUSED, "", refused("tried.module", number, place))
        expect("run --json tried.module", REFUSED, refused_object("tried.module", number, place), refused("tried.module", number, place))
    expect(["run", module([TRAP, 0, 0])], REFUSED, "", refused("tried.module", 16, 2))
    name = module([TRAP])
    for number, more in WRONG_LAYOUTS:
        expect(["run"] + more + [name], REFUSED, "", refused(name, number))
        expect(["run", "--json"] + more + [name], REFUSED, refused_object(name, number, None), refused(name, number))
    expect("run -", REFUSED, "", refused("standard input", 9, 1), data=image([TRAP, 0x42000010]))
    # what would be handed to it is not looked at
    expect(["run", "--rows", "no", "--figures", "no", module([0xFFFFFFFF])], REFUSED, "", refused("tried.module", 8, 0))


def refused_object(name, number, place):
    shown = "null" if place is None else place
    return '{"event":"refused","file":"%s","verdict":"refuse","number":%d,"place":%s}\n' % (name, number, shown)


def test_nothing_done():
    """SYSCALL 1 ends a report; without rows the data is printed. SYSCALL 0 without figures does the same."""
    expect(["run", module([SYSCALL_1])], DONE, placed(4) + after(0, 0x10000) + COMPLETE + data_text([]))
    expect(["run", module([0, SYSCALL_0])], DONE, placed(4) + after(1, 0x10004) + NONE_LEFT + data_text([]))


# What a file of figures says, and the figures.
FIGURES = [
    ("1250\n980\n4999\n315\n", [1250, 980, 4999, 315]),
    ("1250", [1250]),
    ("1250 980 4999 315", [1250, 980, 4999, 315]),
    ("1 2\n3\n4 5 6\n", [1, 2, 3, 4, 5, 6]),
    ("\n \n\t 7\t\t8 \r\n\r\n\n9\n\n", [7, 8, 9]),
    ("+5 -5 -0 007\n", [5, -5, 0, 7]),
    ("%255d\n6" % 5, [5, 6]),
    ("2147483647 -2147483648\n", [2147483647, -2147483648]),
    ("0\n" * 16, [0] * 16),
    (" ".join(str(i) for i in range(1, 17)) + "\n\n", list(range(1, 17))),
]
NOT_WHOLE, NOT_32 = "not a whole number", "a number is not from -2147483648 to 2147483647"
BAD_FIGURES = [
    ("", " is empty"),
    ("\n", " is empty"),
    (" \t\r\n\n  ", " is empty"),
    ("x\n", ", line 1: " + NOT_WHOLE),
    ("5 x\n", ", line 1: " + NOT_WHOLE),
    ("12.50\n", ", line 1: " + NOT_WHOLE),
    ("1,250\n", ", line 1: " + NOT_WHOLE),
    ("0x10\n", ", line 1: " + NOT_WHOLE),
    ("1e3\n", ", line 1: " + NOT_WHOLE),
    ("5-3\n", ", line 1: " + NOT_WHOLE),
    ("--5\n", ", line 1: " + NOT_WHOLE),
    ("-\n", ", line 1: " + NOT_WHOLE),
    ("1\n2\n\n3 four\n5\n", ", line 4: " + NOT_WHOLE),
    ("2147483648\n", ", line 1: " + NOT_32),
    ("1\n-2147483649\n", ", line 2: " + NOT_32),
    ("4294967296\n", ", line 1: " + NOT_32),
    ("99999999999999999999\n", ", line 1: " + NOT_32),
    ("-99999999999999999999\n", ", line 1: " + NOT_32),
    ("0 " * 17, ", line 1: more figures than the 16 words of the data area"),
    ("0\n" * 17, ", line 17: more figures than the 16 words of the data area"),
    ("0 0 0 0\n" * 4 + "\n\nx\n", ", line 7: more figures than the 16 words of the data area"),
    ("1\n%256d\n" % 2, ", line 2: the line is too long"),
    ("5\0", ", line 1: " + NOT_WHOLE),
    ("5\0 6\n7\n", ", line 1: " + NOT_WHOLE),
]


def test_figures():
    for text, figures in FIGURES:
        expect(["run", "samples/m.module", "--figures", write("tried.figures", text)], DONE, m_text(figures) + data_text(figures))
    for text, wrong in BAD_FIGURES:
        expect(["run", "samples/m.module", "--figures", write("tried.figures", text)], NOT_DONE, "", "cc100: tried.figures%s\n" % wrong)
    expect("run samples/m.module --figures samples/missing.figures", NOT_DONE, "",
           "cc100: cannot open samples/missing.figures: No such file or directory\n")
    expect("run samples/m.module --figures samples", NOT_DONE, "", "cc100: cannot read samples: Is a directory\n")


def test_figures_of_other_data():
    """As many as the data area has words: 1 in 4 bytes, 1024 in 4096. M's mask becomes 0, and 0xFFC."""
    small, large = module([0x31080000] + M[1:], 32, "small.module"), module([0x31080FFC] + M[1:], 32, "large.module")
    write("tried.figures", "7\n")
    arguments = ["run", "--data-size", "4", small, "--figures", "tried.figures"]
    expect(arguments, DONE, m_text([7], start=placed(8, data_size=4)) + data_text([7], 1))
    write("tried.figures", "7\n\n8\n")
    expect(arguments, NOT_DONE, "", "cc100: tried.figures, line 3: more figures than the 1 words of the data area\n")
    figures = [i * 1000003 % 2 ** 31 for i in range(1024)]
    arguments = ["run", "--data-size", "0x1000", large, "--figures", "tried.figures"]
    write("tried.figures", "\n".join(str(figure) for figure in figures))
    expect(arguments, DONE, m_text(figures, start=placed(8, data_size=4096)) + data_text(figures, 1024))
    write("tried.figures", "1\n" * 1025)
    expect(arguments, NOT_DONE, "", "cc100: tried.figures, line 1025: more figures than the 1024 words of the data area\n")


def test_figure_in_a_slot():
    """SYSCALL 0 in J's slot: resumed, the run goes on at J's target. Words 0 to 2 are three steps, SYSCALL is word 3. From then on
    the target, word 1, and J are two steps; register 9 is added up in register 10 by word 1 and left there, and the data stays 0."""
    name = module([0, 0x01495020, 0x08004001, SYSCALL_0], 16)
    write("tried.figures", "5 6")
    expect(["run", name, "--figures", "tried.figures"], DONE, placed(4)
           + after(3, 0x1000C) + "asks for a figure, gets 5 for place 0\n" + after(5, 0x1000C) + "asks for a figure, gets 6 for place 4\n"
           + after(7, 0x1000C) + NONE_LEFT + data_text([]))


def test_figures_and_rows():
    """Rows are read before figures. M stores figures 1 and 2 over the quantity and cost of the row; the data is printed, since at
    SYSCALL 0 there is no table. Its first store, of register 9 at place 0, is replaced by the first figure's."""
    write("tried.rows", "7 8 9\n")
    write("tried.figures", "1 2\n")
    both = ["run", "samples/m.module", "--figures", "tried.figures", "--rows", "tried.rows"]
    expect(both, DONE, m_text([1, 2]) + data_text([1, 2, 9]))
    write("tried.rows", "x\n")
    write("tried.figures", "x\n")
    expect(both, NOT_DONE, "", "cc100: tried.rows, line 1: not three whole numbers\n")


def test_budgets():
    """The step that exits is not counted, and needs a step of the budget to be tried (document 01): M's last SYSCALL comes after 31
    steps, and is reached with a budget of 32."""
    figures = "--figures samples/m.figures"
    begin = "\n".join(stored("m.expected").split("\n")[:5]) + "\n"
    first = (0, 4, "store")
    for budget, address, access in ((0, 0x10000, None), (1, 0x10004, None), (2, 0x10008, None), (3, 0x1000C, first)):
        expect("run samples/m.module %s --budget %d" % (figures, budget), REFUSED, placed(8) + after(budget, address) + spent(access))
    expect("run samples/m.module %s --budget 4" % figures, REFUSED, placed(8) + after(3, 0x1000C)
           + "asks for a figure, gets 1250 for place 0\n" + after(4, 0x10014) + spent(first))
    expect("run samples/m.module %s --budget 31" % figures, REFUSED, begin + after(31, 0x1000C) + spent((12, 4, "store")))
    for budget in ("32", "0x20", "0X20", "00032", "4294967296", "4294967297", "0x100000001", "18446744073709551615"):
        expect("run samples/m.module %s --budget %s" % (figures, budget), DONE, stored("m.expected"))
    # the margin report comes after 334 steps, at word 51; its last access is the store of the fourth row's margin
    rows = "run samples/margin.module --rows samples/margin.rows --budget "
    expect(rows + "334", REFUSED, placed(64) + after(334, 0x100CC) + spent((60, 4, "store"), ", the margin of row 4"))
    expect(rows + "335", DONE, stored("margin.expected"))


def test_long_runs():
    """J at word 6 leads to word 1: from the first step on, seven words go round, and n steps lead to word 1 + (n - 1) % 7. The
    program takes ten million steps at a time."""
    name = module([0, 0, 0, 0, 0, 0, 0x08004001, 0], 32)
    for budget in (9999999, 10000000, 10000001, 16777216, 20000003):
        expect(["run", "--budget", str(budget), name], REFUSED, placed(8) + after(budget, 0x10004 + 4 * ((budget - 1) % 7)) + spent())
    # LUI 5,0x40 and 4,194,304 times ADDIU 5,5,-1; BNE 5,0,-2; nothing: 1 + 3 * 4194304 steps, and then the Trap at word 4
    name = module([0x3C050040, 0x24A5FFFF, 0x14A0FFFE, 0, TRAP], 32)
    expect(["run", "--budget", "20000000", name], REFUSED, placed(8) + after(12582913, 0x10010) + "Trap" + incomplete())
    expect(["run", "--budget", "12582913", name], REFUSED, placed(8) + after(12582913, 0x10010) + spent())
    expect(["run", "--budget", "12582914", name], REFUSED, placed(8) + after(12582913, 0x10010) + "Trap" + incomplete())
    # the same with SYSCALL 0: the steps before and after the figure are counted together, 12582913 and then two nothings, J, its
    # slot and it all again
    name = module([0x3C050040, 0x24A5FFFF, 0x14A0FFFE, 0, SYSCALL_0, 0, JUMP, 0], 32)
    write("tried.figures", "5")
    second = 2 * 12582913 + 3
    expect(["run", "--budget", "30000000", "--figures", "tried.figures", name], DONE, placed(8) + after(12582913, 0x10010)
           + "asks for a figure, gets 5 for place 0\n" + after(second, 0x10010) + NONE_LEFT + data_text([]))
    expect(["run", "--budget", str(second), "--figures", "tried.figures", name], REFUSED, placed(8) + after(12582913, 0x10010)
           + "asks for a figure, gets 5 for place 0\n" + after(second, 0x10010) + spent())


# LB, LBU, LH, LHU, LW, LL, SB, SH and SW with register 9 and base 8, their width and what they are; and SC.
ACCESSES = [
    (0x81090000, 1, "load"), (0x91090000, 1, "load"), (0x85090000, 2, "load"), (0x95090000, 2, "load"), (0x8D090000, 4, "load"),
    (0xC1090000, 4, "load"), (0xA1090000, 1, "store"), (0xA5090000, 2, "store"), (0xAD090000, 4, "store"),
]
SC = 0xE1090000


def guarded(access, mask, value):
    """A bundle: ADDIU 5,0,value; ANDI 8,5,mask; OR 8,8,26; and the access, with its offset."""
    return [0x24050000 | value, 0x30A80000 | mask, 0x011A4025, access]


def test_last_access():
    """A bundle with the access, and the Trap at word 4: at the first place, the last one, and 24 and an offset of 20."""
    for word, width, what in ACCESSES:
        for mask, value, offset, place in ((64 - width, 0, 0, 0), (64 - width, 63, 0, 64 - width), (32 - width, 24, 20, 44)):
            expect(["run", module(guarded(word | offset, mask, value) + [TRAP], 32)], REFUSED,
                   placed(8) + after(4, 0x10010) + "Trap" + incomplete((place, width, what)))
    # SC stores only after LL, and is no access where it does not
    expect(["run", module(guarded(SC, 60, 8) + [TRAP], 32)], REFUSED, placed(8) + after(4, 0x10010) + "Trap" + incomplete())
    expect(["run", module(guarded(0xC1090000, 60, 8) + guarded(SC, 60, 16) + [TRAP], 64)], REFUSED,
           placed(16) + after(8, 0x10020) + "Trap" + incomplete((16, 4, "store")))
    expect(["run", module(guarded(0xA1090000, 63, 7) + guarded(SC, 60, 16) + [TRAP], 64)], REFUSED,
           placed(16) + after(8, 0x10020) + "Trap" + incomplete((7, 1, "store")))
    # another layout
    expect(["run", "--data-base", "0x8000", "--data-size", "0x4000", module(guarded(0xA5090000, 0x3FFE, 0x2468) + [TRAP], 32)], REFUSED,
           placed(8, data_size=0x4000, data_base="0x8000") + after(4, 0x10010) + "Trap" + incomplete((0x2468, 2, "store"), 0x8000))


def test_last_access_is_kept():
    """Through steps without one: past a figure, and past ten million steps, which the program takes at a time. From word 4 on, four
    words go round."""
    write("tried.figures", "5")
    name = module(guarded(0xA1090000, 63, 63) + [SYSCALL_0, TRAP], 32)
    expect(["run", name, "--figures", "tried.figures"], REFUSED, placed(8) + after(4, 0x10010) + "asks for a figure, gets 5 for place 0\n"
           + after(4, 0x10014) + "Trap" + incomplete((63, 1, "store")))
    name = module(guarded(0x85090000, 62, 10) + [0, 0, 0x08004004, 0], 32)
    for budget in (4, 5, 10000000, 10000001, 20000004):
        expect(["run", "--budget", str(budget), name], REFUSED,
               placed(8) + after(budget, 0x10010 + 4 * (budget % 4)) + spent((10, 2, "load")))


def m_at(base):
    return M[:6] + [0x08000000 | base >> 2 & 0x3FFFFFF, 0]


# Code base, data base, data size and length of memory: the areas in either order, beside each other, and at both ends of memory.
LAYOUTS = [
    (0, 32, 32, 64, 0x1C), (0x20, 0, 16, 64, 0xC), (0x8000, 0x4000, 0x4000, 0x8020, 0x3C), (0xFFFFE0, 0, 64, 16777216, 0x3C),
    (0, 0xFF0000, 65536, 16777216, 0xFFFC), (0x10000, 0x20000, 64, 0x20040, 0x3C), (0xABCDE0, 0x123400, 256, 16777216, 0xFC),
]


def test_layouts():
    """M stores 5 and 6 at the beginning of its data."""
    write("tried.figures", "5 6")
    for code_base, data_base, data_size, memory_length, mask in LAYOUTS:
        name = module([0x31080000 | mask] + m_at(code_base)[1:], 32)
        start = placed(8, "0x%x" % code_base, data_size, "0x%x" % data_base)
        layout = ["--code-base", hex(code_base), "--data-base", str(data_base), "--data-size", hex(data_size),
                  "--memory-length", str(memory_length)]
        expect(["run"] + layout + [name, "--figures", "tried.figures"], DONE,
               m_text([5, 6], start=start, at=code_base + 12) + data_text([5, 6], data_size // 4))


def test_start():
    """Register 26 is the data base and 27 the code base, and the other registers, HI and LO are 0: each is stored by ANDI 8,0,m; OR
    8,8,26 and SW."""
    for stored_register, value in ((26, 0x123400), (27, 0xABCD00), (1, 0), (31, 0), (9, 0)):
        name = module([0x30080000, 0x011A4025, 0xAD000000 | stored_register << 16, SYSCALL_1, 0, 0, 0x08000000 | 0xABCD00 >> 2, 0], 32)
        expect(["run", "--code-base", "0xABCD00", "--data-base", "0x123400", "--memory-length", "0x1000000", name], DONE,
               placed(8, "0xabcd00", 64, "0x123400") + after(3, 0xABCD0C) + COMPLETE + data_text([value]))
    for source in (0x00004810, 0x00004812):  # MFHI 9, MFLO 9
        name = module([source, 0x30080000, 0x011A4025, 0xAD090000, SYSCALL_1, 0, JUMP, 0], 32)
        expect(["run", name], DONE, placed(8) + after(4, 0x10010) + COMPLETE + data_text([]))


def test_standard_input():
    sample, start = image(M, 32), placed(8)
    write("tried.figures", "3 4")
    write("tried.rows", "1 2 3")
    nothing = after(0, 0x10000) + COMPLETE
    expect("run -", DONE, start + after(3, 0x1000C) + NONE_LEFT + data_text([]), data=sample)
    expect("run - --figures tried.figures", DONE, m_text([3, 4]) + data_text([3, 4]), data=sample)
    expect("run samples/m.module --figures -", DONE, m_text([3, 4]) + data_text([3, 4]), data=b"3 4\n")
    module([SYSCALL_1])
    expect("run tried.module --rows -", DONE, placed(4) + nothing + "    quantity        cost       price      margin\n"
           "           1           2           3           0\ntotal margin 0, rate 0.00 %\n", data=b"1 2 3")
    for twice in ("run - --figures -", "run - --rows -"):
        expect(twice, NOT_DONE, "", "cc100: standard input can be read only once\n", data=sample)
    expect("run samples/m.module --rows - --figures -", NOT_DONE, "", "cc100: standard input can be read only once\n", data=b"1 2 3\n")
    expect("run - --figures tried.figures --rows tried.rows", DONE, m_text([3, 4]) + data_text([3, 4, 3]), data=sample)
    expect("run samples/m.module --figures -", NOT_DONE, "", "cc100: standard input is empty\n", data=b"")
    expect("run samples/m.module --figures -", NOT_DONE, "", "cc100: standard input, line 2: not a whole number\n", data=b"1\nx\n")
    expect("run samples/m.module --rows -", NOT_DONE, "", "cc100: standard input, line 1: not three whole numbers\n", data=b"1\n")
    expect("run -", REFUSED, "", refused("standard input", 2), data=b"")


def objects(arguments, status, expected, data=None):
    """All objects of a run with their members in order, without blanks between them."""
    expect(arguments, status, "".join(json.dumps(members, separators=(",", ":")) + "\n" for members in expected), data=data)


def start_object(name, words, code_base=0x10000, data_base=DATA_BASE, data_size=DATA_SIZE):
    return {"event": "start", "file": name, "words": words, "code_base": code_base, "data_base": data_base, "data_size": data_size}


def access_object(access, data_base=DATA_BASE):
    if access is None:
        return None
    place, width, what = access
    return {"address": data_base + place, "place": place, "width": width, "store": what == "store"}


def end_object(complete, steps, address, number, name, access=None, data_base=DATA_BASE, **more):
    code = {"code": more.pop("code")} if "code" in more else {}
    return {"event": "end", "complete": complete, "steps": steps, "address": address, "number": number, "exit": name, **code,
            "access": access_object(access, data_base), **more}


def test_objects():
    figures = [1250, 980, 4999, 315]
    given = [{"event": "figure", "steps": 3 + 7 * i, "address": 0x1000C, "place": 4 * i, "figure": f} for i, f in enumerate(figures)]
    objects("run --json samples/m.module --figures samples/m.figures", DONE, [start_object("samples/m.module", 8)] + given
            + [end_object(True, 31, 0x1000C, 46, "System Call", (12, 4, "store"), code=0, data=figures + [0] * 12)])
    objects("run --json samples/m.module", DONE, [
        start_object("samples/m.module", 8), end_object(True, 3, 0x1000C, 46, "System Call", (0, 4, "store"), code=0, data=[0] * 16)])
    objects("run --json samples/m.module --budget 3", REFUSED, [start_object("samples/m.module", 8),
                                                               end_object(False, 3, 0x1000C, 0, None, (0, 4, "store"))])
    objects(["run", "--json", module(guarded(0x91090000, 63, 63) + [TRAP], 32)], REFUSED, [
        start_object("tried.module", 8), end_object(False, 4, 0x10010, 48, "Trap", (63, 1, "load"))])
    numbers = {"Trap": 48, "Breakpoint": 47, "Integer Overflow": 40}
    for words, steps, address, what in ENDINGS:
        end = end_object(False, steps, address, numbers[what], what) if what in numbers else end_object(
            False, steps, address, 46, "System Call", code=int(what.split()[2].rstrip(",")))
        objects(["run", "--json", module(words)], REFUSED, [start_object("tried.module", 4), end])
    # the figures are signed and the words of the data are not; 32 words are one list
    write("tried.figures", "-1 -2147483648")
    arguments = ["run", "--json", "--data-size", "128", "--code-base", "0x40", "--data-base", "0x80", "--memory-length", "0x100",
                 module(m_at(0x40), 32), "--figures", "tried.figures"]
    objects(arguments, DONE, [
        start_object("tried.module", 8, 0x40, 0x80, 128), {"event": "figure", "steps": 3, "address": 0x4C, "place": 0, "figure": -1},
        {"event": "figure", "steps": 10, "address": 0x4C, "place": 4, "figure": -2147483648},
        end_object(True, 17, 0x4C, 46, "System Call", (4, 4, "store"), 0x80, code=0, data=[4294967295, 2147483648] + [0] * 30)])
    objects("run --json -", REFUSED, [start_object("-", 4), end_object(False, 0, 0x10000, 48, "Trap")], data=image([TRAP]))


def test_object_bytes():
    name = module([SYSCALL_0, 0x00000034], 16)
    expect(["run", "--json", name], DONE,
           '{"event":"start","file":"tried.module","words":4,"code_base":65536,"data_base":131072,"data_size":64}\n'
           '{"event":"end","complete":true,"steps":0,"address":65536,"number":46,"exit":"System Call","code":0,"access":null,'
           '"data":[0,0,0,0,0,0,0,0,0,0,0,0,0,0,0,0]}\n')
    expect(["run", "--json", name, "--figures", write("tried.figures", "-7")], REFUSED,
           '{"event":"start","file":"tried.module","words":4,"code_base":65536,"data_base":131072,"data_size":64}\n'
           '{"event":"figure","steps":0,"address":65536,"place":0,"figure":-7}\n'
           '{"event":"end","complete":false,"steps":0,"address":65540,"number":48,"exit":"Trap","access":null}\n')
    expect(["run", "--json", name, "--budget", "0"], REFUSED,
           '{"event":"start","file":"tried.module","words":4,"code_base":65536,"data_base":131072,"data_size":64}\n'
           '{"event":"end","complete":false,"steps":0,"address":65536,"number":0,"exit":null,"access":null}\n')
    expect(["run", "--json", module([0x42000010])], REFUSED,
           '{"event":"refused","file":"tried.module","verdict":"refuse","number":9,"place":0}\n', refused("tried.module", 9, 0))
