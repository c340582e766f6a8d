"""cc100 run --rows: tables, what the margin report makes of them, and files of rows that are not right."""
import json
import random

from modules import TRAP as TRAP_WORD, module
from program import DONE, NOT_DONE, REFUSED, equal, expect, write
from running import COMPLETE, SYSCALL_1, after, data_text, end_object, guarded, incomplete, placed, start_object, stored

HEADING = "    quantity        cost       price      margin\n"
MARGIN = ["run", "samples/margin.module", "--rows"]
SMALLEST, LARGEST = -2 ** 31, 2 ** 31 - 1
TABLES = 300
OVERFLOW, TRAP = "Integer Overflow", "Trap"
CELLS = ("quantity", "cost", "price", "margin")


def expect_table(rows, status, out, more=()):
    expect(MARGIN + [write("tried.rows", rows)] + list(more), status, out)


# samples/margin.module has 4 steps before its rows. A row has 28 steps, words 4 to 31, and two products of 10 steps each, words 54
# to 63, in which the fifth word, at 0x100e8, is the Trap: 48 in all, so that 196 steps lead to word 32, the Trap for no sales. From
# there 6 steps lead to the digits, each of 13 steps, words 38 to 50, and two products: SYSCALL is reached after 202 + 4 * 33 steps,
# at word 51.
#
# A row's loads come before its difference, the price last, and the store of its margin before the total. The rows are always four: those
# that are not given are zeros, and are not named.
STOPPED = [
    # the difference, SUB at word 15
    ("1 -1 2147483647\n", 15, 0x1003C, OVERFLOW, (8, 4, "load"), ", the price of row 1"),
    # the margin, after words 4 to 19 and four of the product; it is 2^31
    ("65536 0 32768\n", 24, 0x100E8, TRAP, (8, 4, "load"), ", the price of row 1"),
    # the total, ADD at word 23, in the second row: 52 + 16 + 10 + 3
    ("1 0 2000000000\n1 0 2000000000\n", 81, 0x1005C, OVERFLOW, (28, 4, "store"), ", the margin of row 2"),
    # a sale, 4 + 24 + 10 and four of the product
    ("2 2000000000 2000000001\n", 42, 0x100E8, TRAP, (12, 4, "store"), ", the margin of row 1"),
    # the sales, ADD at word 28: 52 + 24 + 20
    ("1 1999999999 2000000000\n1 1999999999 2000000000\n", 96, 0x10070, OVERFLOW, (28, 4, "store"), ", the margin of row 2"),
    # no sales
    ("0 835 1250\n", 196, 0x10080, TRAP, (60, 4, "store"), ""),
    ("3 835 1250\n-3 835 1250\n", 196, 0x10080, TRAP, (60, 4, "store"), ""),
    # ten times the rate, 202 + 2 and four of the product: the rate is 10^9
    ("1 -999999999 1\n", 208, 0x100E8, TRAP, (60, 4, "store"), ""),
    # ten times the remainder, 202 + 2 + 10 + 4 and four of the product: it is 10^9
    ("1 1000000000 2000000000\n", 222, 0x100E8, TRAP, (60, 4, "store"), ""),
]
# Worked out by hand. In the last the margins are 4 * 5, 7 * -3 and 1 * 0, and -1 of 200 + 210 + 10 is -0.238 percent.
FINISHED = [
    ("1 1005 1000\n", "           1        1005        1000          -5\ntotal margin -5, rate -0.50 %\n"),
    ("2 0 7\n", "           2           0           7          14\ntotal margin 14, rate 100.00 %\n"),
    ("10 60 100\n-2 60 100",
     "          10          60         100         400\n          -2          60         100         -80\n"
     "total margin 320, rate 40.00 %\n"),
    ("1 2040118966 9500\n", "           1  2040118966        9500 -2040109466\ntotal margin -2040109466, rate -21474836.48 %\n"),
    ("1 0 -2147483648\n", "           1           0 -2147483648 -2147483648\ntotal margin -2147483648, rate 100.00 %\n"),
    ("\t+1  0\t2147483647 \r\n", "           1           0  2147483647  2147483647\ntotal margin 2147483647, rate 100.00 %\n"),
    ("4 45 50\n7 33 30\n1 10 10\n",
     "           4          45          50          20\n           7          33          30         -21\n"
     "           1          10          10           0\ntotal margin -1, rate -0.23 %\n"),
    # the longest line, of 255 characters, with its end and without
    ("2 0 %251d\n2 0 %251d" % (7, 7), "           2           0           7          14\n" * 2 + "total margin 28, rate 100.00 %\n"),
]


def test_tables():
    for rows, steps, address, what, access, cell in STOPPED:
        expect_table(rows, REFUSED, placed(64) + after(steps, address) + what + incomplete(access, cell=cell))
    for rows, table in FINISHED:
        expect_table(rows, DONE, placed(64) + after(334, 0x100CC) + COMPLETE + HEADING + table)


def test_samples():
    """margin.expected by hand: 240 * 415 = 99600, 96 * -200 = -19200, 500 * 1579 = 789500 and 1200 * 108 = 129600 give 999500. The
    sales are 300000 + 94080 + 2499500 + 378000 = 3271580, and 999500 * 10000 / 3271580 is 3055.09.

    In samples/too_large.rows the second margin, 1500000 * 2500 = 3750000000, does not fit: the first row ends after 52 steps, and
    words 4 to 19 and four of the product lead to the Trap. Without rows there are no sales."""
    expect(MARGIN + ["samples/margin.rows"], DONE, stored("margin.expected"))
    expect(MARGIN + ["samples/too_large.rows"], REFUSED, stored("too_large.expected"))
    expect("run samples/margin.module", REFUSED, placed(64) + after(196, 0x10080) + TRAP + incomplete((60, 4, "store")))


def test_cells():
    """The cell of a row that is given, by any of its bytes; a bundle with SB 9,0(8) and then a Trap."""
    cells = [(0, ", the quantity of row 1"), (3, ", the quantity of row 1"), (4, ", the cost of row 1"), (11, ", the price of row 1"),
             (12, ", the margin of row 1"), (31, ", the margin of row 2"), (32, ", the quantity of row 3"), (47, ", the margin of row 3"),
             (48, ""), (63, "")]
    write("tried.rows", "1 2 3\n" * 3)
    for place, cell in cells:
        expect(["run", module(guarded(0xA1090000, 63, place) + [TRAP_WORD], 32), "--rows", "tried.rows"], REFUSED,
               placed(8) + after(4, 0x10010) + TRAP + incomplete((place, 1, "store"), cell=cell))
    # nothing was used
    expect(["run", module([TRAP_WORD]), "--rows", "tried.rows"], REFUSED, placed(4) + after(0, 0x10000) + TRAP + incomplete())


NOT_NUMBERS, NOT_32 = "not three whole numbers", "a number is not from -2147483648 to 2147483647"
BAD_ROWS = [
    ("", " is empty"),
    ("\n", ", line 1: " + NOT_NUMBERS),
    ("   ", ", line 1: " + NOT_NUMBERS),
    ("240 835\n", ", line 1: " + NOT_NUMBERS),
    ("240\n835\n1250\n", ", line 1: " + NOT_NUMBERS),
    ("240 835 1250 99600\n", ", line 1: " + NOT_NUMBERS),
    ("240 835 1250 x\n", ", line 1: " + NOT_NUMBERS),
    ("240 835 1250\n96 cost 980\n", ", line 2: " + NOT_NUMBERS),
    ("240 835 12.50\n", ", line 1: " + NOT_NUMBERS),
    ("1,200 835 1250\n", ", line 1: " + NOT_NUMBERS),
    ("240-835 1250\n", ", line 1: " + NOT_NUMBERS),
    ("240;835;1250\n", ", line 1: " + NOT_NUMBERS),
    ("240 835 1250\n\n96 1180 980\n", ", line 2: " + NOT_NUMBERS),
    ("240 835 1250\n\n", ", line 2: " + NOT_NUMBERS),
    ("1 2 3\n1 2 3\n1 2 3\n1 2 3\n1 2 3\n", ", line 5: more rows than the 4 that the data area has room for"),
    ("1 2 3\n1 2 3\n1 2 3\n1 2 3\n\n", ", line 5: " + NOT_NUMBERS),
    ("1 2 2147483648\n", ", line 1: " + NOT_32),
    ("1 2 3\n-2147483649 2 3\n", ", line 2: " + NOT_32),
    ("1 99999999999999999999 3\n", ", line 1: " + NOT_32),
    ("1 2 %252d\n" % 3, ", line 1: the line is too long"),  # of 256 characters
    ("1 2 3\n1 2 3" + " " * 300, ", line 2: the line is too long"),
    ("1 2 3\0", ", line 1: " + NOT_NUMBERS),
]


def test_bad_rows():
    for rows, wrong in BAD_ROWS:
        expect(MARGIN + [write("tried.rows", rows)], NOT_DONE, "", "cc100: tried.rows%s\n" % wrong)
        expect(MARGIN + ["tried.rows", "--json"], NOT_DONE, "", "cc100: tried.rows%s\n" % wrong)
    expect(MARGIN + ["samples/missing.rows"], NOT_DONE, "", "cc100: cannot open samples/missing.rows: No such file or directory\n")
    expect(MARGIN + ["samples"], NOT_DONE, "", "cc100: cannot read samples: Is a directory\n")


def row_object(numbers):
    return dict(zip(CELLS, numbers))


def number_line(numbers):
    return "".join("%12d" % number for number in numbers) + "\n"


def test_nothing_done():
    """A module that does nothing but say that its report is complete finds the rows in place, with margins, total and rate of 0."""
    name = module([SYSCALL_1])
    expect(["run", name], DONE, placed(4) + after(0, 0x10000) + COMPLETE + data_text([]))
    expect(["run", name, "--rows", write("tried.rows", "1 2 3\n4 5 6\n")], DONE, placed(4) + after(0, 0x10000) + COMPLETE + HEADING
           + number_line((1, 2, 3, 0)) + number_line((4, 5, 6, 0)) + "total margin 0, rate 0.00 %\n")


# What is in register 9, in hundredths of a percent, and how it is printed. LUI 9 and ORI 9 put it there; LUI 8 and ORI 8 the total.
RATES = [
    (0, "0.00"), (1, "0.01"), (-1, "-0.01"), (99, "0.99"), (-99, "-0.99"), (100, "1.00"), (-100, "-1.00"), (-101, "-1.01"),
    (12345, "123.45"), (LARGEST, "21474836.47"), (SMALLEST, "-21474836.48"),
]


def test_rates():
    write("tried.rows", "7 8 9")
    for rate, text in RATES:
        high, low = rate >> 16 & 0xFFFF, rate & 0xFFFF
        name = module([0x3C090000 | high, 0x35290000 | low, 0x3C080000 | high, 0x35080000 | low, SYSCALL_1], 32)
        expect(["run", name, "--rows", "tried.rows"], DONE, placed(8) + after(4, 0x10010) + COMPLETE + HEADING + number_line((7, 8, 9, 0))
               + "total margin %d, rate %s %%\n" % (rate, text))
        objects_of(["run", "--json", name, "--rows", "tried.rows"], DONE, name, 8, end_object(
            True, 4, 0x10010, 46, "System Call", code=1, rows=[row_object((7, 8, 9, 0))], total=rate, rate=rate))


def objects_of(arguments, status, name, words, end, **layout):
    expect(arguments, status, "".join(json.dumps(o, separators=(",", ":")) + "\n" for o in (start_object(name, words, **layout), end)))


def test_other_data_sizes():
    """16 bytes have room for one row, 4 and 8 for none, 65,536 for 4096."""
    name = module([SYSCALL_1])
    for size in (4, 8, 16, 32, 128, 65536):
        rows = [(i, -i, 1000 * i) for i in range(1, size // 16 + 1)]
        text = "".join("%d %d %d\n" % row for row in rows)
        arguments = ["run", name, "--data-size", str(size), "--rows", "tried.rows"]
        if rows:
            write("tried.rows", text)
            expect(arguments, DONE, placed(4, data_size=size) + after(0, 0x10000) + COMPLETE + HEADING
                   + "".join(number_line(row + (0,)) for row in rows) + "total margin 0, rate 0.00 %\n")
            shown = [row_object(row + (0,)) for row in rows]
            end = end_object(True, 0, 0x10000, 46, "System Call", code=1, rows=shown, total=0, rate=0)
            objects_of(arguments + ["--json"], DONE, name, 4, end, data_size=size)
        write("tried.rows", text + "1 2 3\n")
        expect(arguments, NOT_DONE, "", "cc100: tried.rows, line %d: more rows than the %d that the data area has room for\n"
               % (len(rows) + 1, len(rows)))


def test_object_bytes():
    expect(MARGIN + [write("tried.rows", "1 1005 1000\n2 0 -1\n"), "--json"], DONE,
           # margins -5 and -2, sales 1000 - 2; -7 * 10000 / 998 is -70.14
           '{"event":"start","file":"samples/margin.module","words":64,"code_base":65536,"data_base":131072,"data_size":64}\n'
           '{"event":"end","complete":true,"steps":334,"address":65740,"number":46,"exit":"System Call","code":1,'
           '"access":{"address":131132,"place":60,"width":4,"store":true},'
           '"rows":[{"quantity":1,"cost":1005,"price":1000,"margin":-5},{"quantity":2,"cost":0,"price":-1,"margin":-2}],'
           '"total":-7,"rate":-70}\n')
    expect(MARGIN + ["samples/too_large.rows", "--json"], REFUSED,
           '{"event":"start","file":"samples/margin.module","words":64,"code_base":65536,"data_base":131072,"data_size":64}\n'
           '{"event":"end","complete":false,"steps":72,"address":65768,"number":48,"exit":"Trap",'
           '"access":{"address":131096,"place":24,"width":4,"store":false}}\n')


def fits(number):
    return SMALLEST <= number <= LARGEST


def divided(number, by):
    """Cut off towards zero."""
    quotient = abs(number) // abs(by)
    return quotient if (number < 0) == (by < 0) else -quotient


def calculated(rows):
    """The margins, the total and the rate of a table; or the steps, the address, the exit and the last access where the first number
    does not fit. Where each stands is worked out above STOPPED."""
    total, sales, margins = 0, 0, []
    for i, (quantity, cost, price) in enumerate(rows):
        begin, loaded, stored_margin = 4 + 48 * i, (16 * i + 8, 4, "load"), (16 * i + 12, 4, "store")
        margin = (price - cost) * quantity
        if not fits(price - cost):
            return begin + 11, 0x1003C, OVERFLOW, loaded
        if not fits(margin):
            return begin + 20, 0x100E8, TRAP, loaded
        margins.append(margin)
        total += margin
        if not fits(total):
            return begin + 29, 0x1005C, OVERFLOW, stored_margin
        if not fits(price * quantity):
            return begin + 38, 0x100E8, TRAP, stored_margin
        sales += price * quantity
        if not fits(sales):
            return begin + 44, 0x10070, OVERFLOW, stored_margin
    return rated(margins, total, sales)


def rated(margins, total, sales):
    """The rate is divided out digit by digit: of a digit, the first product's Trap comes after 2 + 4 steps, the second's 16 later,
    and the sum at word 47 after 29. The last access is the store of the fourth row's margin."""
    last = (60, 4, "store")
    if sales == 0:
        return 196, 0x10080, TRAP, last
    rate = divided(total, sales)
    rest = total - rate * sales
    for digit in range(4):
        begin = 202 + 33 * digit
        if not fits(10 * rate):
            return begin + 6, 0x100E8, TRAP, last
        if not fits(10 * rest):
            return begin + 20, 0x100E8, TRAP, last
        more = divided(10 * rest, sales)
        rest, rate = 10 * rest - more * sales, 10 * rate + more
        if not fits(rate):
            return begin + 29, 0x100BC, OVERFLOW, last
    equal("run samples/margin.module", "the rate digit by digit and at once", divided(10000 * total, sales), rate)
    return margins, total, rate


def random_number(rng, bits):
    return rng.getrandbits(bits) * rng.choice((1, 1, 1, 1, 1, 1, 1, -1))


def random_rows(rng):
    quantity_bits, price_bits = rng.randint(1, 31), rng.randint(1, 31)
    return [tuple(random_number(rng, bits) for bits in (quantity_bits, price_bits, price_bits)) for _ in range(rng.randint(1, 4))]


LIMITS = [
    (0, 0, 0), (1, 5, 5), (1, 0, LARGEST), (1, 0, SMALLEST), (-1, 0, SMALLEST), (SMALLEST, 0, 1), (SMALLEST, 0, -1),
    (1, 1, SMALLEST), (1, -1, LARGEST),
    (LARGEST, LARGEST, LARGEST), (SMALLEST, SMALLEST, SMALLEST), (65536, 0, 32768), (65536, 0, -32768), (1, LARGEST, -1), (1, -LARGEST, 1),
    (1, 21474837, 1), (1, -214747, 1), (1, -214748, 1), (1, 214749, 1), (1, -1073741819, 5), (1, -1073736824, 5000), (1, 2040118967, 9500),
    (1, 2040118966, 9500), (1, 5, 1073741824), (1, 107374182, 214748364), (1, 214748364, 429496729), (1, 214748365, 429496730),
    (-3, 1, 3), (3, 7, 5),
]


def rate_text(rate):
    return "%s%d.%02d" % ("-" if rate < 0 else "", abs(rate) // 100, abs(rate) % 100)


def expect_report(rows, as_objects):
    """Gives how the run must end."""
    came = calculated(rows)
    arguments = MARGIN + [write("tried.rows", "".join("%d %d %d\n" % row for row in rows))]
    if came[2] in (OVERFLOW, TRAP):
        steps, address, what, access = came
        row, cell = divmod(access[0], 16)
        named = ", the %s of row %d" % (CELLS[cell // 4], row + 1) if row < len(rows) else ""
        end = end_object(False, steps, address, {OVERFLOW: 40, TRAP: 48}[what], what, access)
        text, status = after(steps, address) + what + incomplete(access, cell=named), REFUSED
    else:
        margins, total, rate = came
        table = [row + (margin,) for row, margin in zip(rows, margins)]
        end = end_object(True, 334, 0x100CC, 46, "System Call", (60, 4, "store"), code=1,
                         rows=[row_object(row) for row in table], total=total, rate=rate)
        text = (after(334, 0x100CC) + COMPLETE + HEADING + "".join(number_line(row) for row in table)
                + "total margin %d, rate %s %%\n" % (total, rate_text(rate)))
        what, status = "complete", DONE
    if as_objects:
        objects_of(arguments + ["--json"], status, "samples/margin.module", 64, end)
    else:
        expect(arguments, status, placed(64) + text)
    return what


def test_random_tables():
    rng, met = random.Random(20261116), {}
    for i, rows in enumerate([[row] for row in LIMITS] + [random_rows(rng) for _ in range(TABLES)]):
        what = expect_report(rows, i % 2 == 1)
        met[what] = met.get(what, 0) + 1
    for what, least in (("complete", TABLES // 10), (TRAP, TABLES // 10), (OVERFLOW, TABLES // 100)):
        equal(MARGIN, "%s is often met" % what, True, met.get(what, 0) >= least)
