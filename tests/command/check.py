"""cc100 check: verdicts on one file and on several, as text and as JSON, beside the second emulator's and the verdict program's."""
import json
import os
import random
import struct

import modules
from modules import image, module, straight_words, write_words
from program import DONE, NOT_DONE, REFUSED, as_bytes, equal, expect, path_of, run, write

M_WORDS = [0x3108003C, 0x011A4025, 0xAD090000, 0x0000000C, 0, 0, 0x08004000, 0]  # module M of document 01
M = image(M_WORDS, 32)

# Document 01's refusal table: what its examples add to 32 bytes of code, as options or as first words.
LAYOUTS = [
    (1, "--memory-length 16777217"),
    (2, "--code-size 24"),
    (3, "--data-size 2"),
    (4, "--code-base 0x10010"),
    (5, "--data-base 0x30000"),
    (6, "--data-base 0x10000"),
]
WORDS = [
    (8, 0, [0xFFFFFFFF]),
    (9, 0, [0x42000010]),
    (10, 0, [0x3C1A0000]),
    (11, 0, [0x07F10000]),
    (12, 0, [0xAD090000]),
    (13, 0, [0x03E00008]),
    (14, 1, [0x08004000, 0x08004000]),
    (15, 0, [0x08004007]),
    (16, 6, [0] * 8),
    # C10, C11 and C12; the first two as ticket 5 of document 02 has them
    (22, 0, [0x3108003F] + M_WORDS[1:]),
    (22, 0, [0x31080040] + M_WORDS[1:]),
    (15, 6, M_WORDS[:6] + [0x08004001, 0]),
    # ticket 5 of document 02: an offset, right words in the second word of a bundle, and another register's guard with a wrong mask
    (22, 0, M_WORDS[:2] + [0xAD09FFFC] + M_WORDS[3:]),
    (22, 1, [0, 0x3108003F] + M_WORDS[1:3] + M_WORDS[4:]),
    (12, 2, [0x3109003F] + M_WORDS[1:]),
    # ticket 7: masks with a hole, one in the second word of a bundle; and with a wrong offset, and another register's guard
    (25, 0, [0x31080034] + M_WORDS[1:]),
    (25, 0, [0x31080030] + M_WORDS[1:]),
    (25, 1, [0, 0x31080034] + M_WORDS[1:3] + M_WORDS[4:]),
    (22, 0, [0x31080034, M_WORDS[1], 0xAD09FFFC] + M_WORDS[3:]),
    (12, 2, [0x31090034] + M_WORDS[1:]),
]


def escaped(name):
    """A file's name in JSON: what UTF-8 does not have is U+FFFD, a byte at a time."""
    text = ""
    for c in as_bytes(name).decode("utf-8", "surrogateescape"):
        if "\udc80" <= c <= "\udcff":
            text += "\\ufffd"
        elif c < " " or c == "\x7f":
            text += "\\u%04x" % ord(c)
        else:
            text += "\\" + c if c in '"\\' else c
    return '"%s"' % text


def object_of(name, verdict):
    """The line of --json, from the line of text."""
    word, *numbers = verdict.split()
    if word == "accept":
        return '{"file":%s,"verdict":"accept","words":%s}\n' % (escaped(name), numbers[0])
    place = "null" if numbers[1] == "-" else numbers[1]
    return '{"file":%s,"verdict":"refuse","number":%s,"place":%s}\n' % (escaped(name), numbers[0], place)


def value_of(name, verdict):
    """The same as json.loads gives it."""
    word, *numbers = verdict.split()
    shown = "".join("\ufffd" if "\udc80" <= c <= "\udcff" else c for c in as_bytes(name).decode("utf-8", "surrogateescape"))
    if word == "accept":
        return {"file": shown, "verdict": "accept", "words": int(numbers[0])}
    return {"file": shown, "verdict": "refuse", "number": int(numbers[0]), "place": None if numbers[1] == "-" else int(numbers[1])}


def status_of(verdicts):
    return DONE if all(verdict.startswith("accept") for verdict in verdicts) else REFUSED


def expect_verdicts(options, files, verdicts, data=None):
    """Files that can all be read: one call for their lines, and one for their objects, which a JSON reader takes as meant."""
    names = ["standard input" if name == "-" else name for name in files]
    lines = b"".join(b"%s: %s\n" % (as_bytes(name), as_bytes(verdict)) for name, verdict in zip(names, verdicts))
    expect(["check"] + options + files, status_of(verdicts), lines if len(files) > 1 else verdicts[0] + "\n", data=data)
    objects = "".join(object_of(name, verdict) for name, verdict in zip(files, verdicts))
    came = expect(["check", "--json"] + options + files, status_of(verdicts), objects, data=data)
    read = [json.loads(line) for line in came.out.decode("utf-8").split("\n")[:-1]]
    equal(["check", "--json"] + options + files, "as a JSON reader takes it", [value_of(*pair) for pair in zip(files, verdicts)], read)


def test_samples():
    """Document 01's C9, and what README says of the samples."""
    verdicts = ["accept 8", "accept 64", "accept 8", "refuse 22 0", "refuse 12 3", "refuse 25 0"]
    files = ["samples/%s.module" % name for name in ("m", "margin", "overflow", "refused", "forgotten", "holes")]
    for file, verdict in zip(files, verdicts):
        expect_verdicts([], [file], [verdict])
    expect_verdicts([], files, verdicts)
    expect_verdicts([], files[::-1], verdicts[::-1])
    expect_verdicts(["--data-size", "128"], files, verdicts[:3] + ["accept 8", "refuse 12 3", "refuse 25 0"])
    expect_verdicts([], [files[0]] * 3, ["accept 8"] * 3)


def test_refusals():
    """Every number that the checker gives, by document 01's own examples, C10 to C12, and guards."""
    name = module(M_WORDS, 32)
    for number, option in LAYOUTS:
        expect_verdicts(option.split(), [name], ["refuse %d -" % number])
    expect_verdicts(["--code-size", "32"], [write("cut.module", M[:28])], ["refuse 7 -"])
    for number, place, words in WORDS:
        expect_verdicts([], [module(words, 32)], ["refuse %d %d" % (number, place)])
    together = [module(words, 32, "%d.module" % i) for i, (_, _, words) in enumerate(WORDS)]
    expect_verdicts([], together, ["refuse %d %d" % (number, place) for number, place, _ in WORDS])


# Ticket 2 of document 02, by hand: the verdict on a straight-through module of eight words, whose last bundle starts at word 4.
LAST = straight_words([], 32)[4:]
STRAIGHT = [
    ("accept 8", [0, 0, 0, 0] + LAST),
    ("accept 8", [0x10000001, 0, 0x10000001, 0] + LAST),      # BEQ two words ahead, the second to the last bundle's start
    ("accept 8", [0x0C004004, 0, 0, 0] + LAST),               # JAL to the last bundle's start
    ("refuse 20 0", [0x10000000, 0, 0, 0] + LAST),            # one word ahead
    ("refuse 20 1", [0, 0x1000FFFF, 0, 0] + LAST),            # to itself
    ("refuse 20 3", [0, 0, 0, 0x1000FFFC] + LAST),            # back to the first word
    ("refuse 20 3", [0, 0, 0, 0x08004004] + LAST),            # J to the last bundle's start, one word ahead
    ("refuse 20 0", [0x08004005, 0, 0, 0] + LAST),            # past the last bundle's start
    ("refuse 20 0", [0x08004006, 0, 0, 0] + LAST),
    ("refuse 20 6", [0, 0, 0, 0, 0xC, 0, 0x0C004004, 0]),     # JAL in the last word but one
    ("refuse 20 6", [0, 0, 0, 0, 0xC, 0, 0x08004000, 0]),     # J elsewhere there
    ("refuse 20 2", [0x30A50010, 0x00BB2825, 0x00A00008, 0] + LAST),              # JR with its guard
    ("refuse 20 6", [0, 0, 0, 0, 0x30A50010, 0x00BB2825, 0x00A00008, 0]),         # the same in the last bundle
    ("refuse 20 3", [0, 0x30A50010, 0x00BB2825, 0x00A0F809] + LAST),              # JALR
    ("refuse 21 -", [0, 0, 0, 0, 0x4C, 0, 0x08004004, 0]),    # SYSCALL 1
    ("refuse 21 -", [0, 0, 0, 0, 0xD, 0, 0x08004004, 0]),     # BREAK 0
    ("refuse 21 -", [0, 0, 0, 0, 0xC, 0x40, 0x08004004, 0]),  # SLL 0,0,1
    ("refuse 21 -", [0, 0, 0, 0, 0xC, 0, 0x08004004, 0x21]),  # ADDU 0,0,0
    ("refuse 21 -", [0, 0, 0, 0, 0, 0, 0x08004004, 0]),
]
# The same, where the verdict is that of the other rules.
OTHERWISE = [
    ("refuse 13 0", [0x00A00008, 0, 0, 0] + LAST), ("refuse 15 0", [0x08004007, 0, 0, 0] + LAST), ("refuse 16 6", [0] * 8),
    ("refuse 14 1", [0x08004004, 0x08004000, 0, 0] + LAST), ("refuse 8 7", [0, 0, 0, 0, 0xD, 0, 0x08004004, 0xFFFFFFFF]),
]


def test_straight():
    """What 20 and 21 refuse is accepted without the option, and what another number refuses is not."""
    for verdict, words in STRAIGHT:
        expect_verdicts(["--straight"], [write_words(words)], [verdict])
        expect_verdicts([], ["tried.module"], ["accept 8"])
    for verdict, words in OTHERWISE:
        expect_verdicts(["--straight"], [write_words(words)], [verdict])
        expect_verdicts([], ["tried.module"], [verdict])
    together = [write_words(words, "%d.module" % i) for i, (_, words) in enumerate(STRAIGHT)]
    expect_verdicts(["--straight"], together, [verdict for verdict, _ in STRAIGHT])
    for number, option in LAYOUTS:
        expect_verdicts(["--straight"] + option.split(), [write_words(STRAIGHT[0][1])], ["refuse %d -" % number])
    files = ["samples/%s.module" % name for name in ("totals", "m", "margin", "overflow", "refused", "forgotten", "holes")]
    refused = ["refuse 22 0", "refuse 12 3", "refuse 25 0"]
    expect_verdicts([], files, ["accept 128", "accept 8", "accept 64", "accept 8"] + refused)
    expect_verdicts(["--straight"], files, ["accept 128", "refuse 20 6", "refuse 20 30", "refuse 20 6"] + refused)
    for length in (16, 32, 4096, 65536):
        expect_verdicts(["--straight"], [write_words(straight_words([], length))], ["accept %d" % (length // 4)])


def test_order_of_refusals():
    """Where more than one of 1 to 7 is broken the smallest is named: the options of each and of all that come after it."""
    file = write("cut.module", M[:28] + b"\xff")
    options = [option for _, option in LAYOUTS[:4]]  # the data base is wrong in two ways, so 5 and 6 are tried by themselves
    for first in range(4):
        wrong = " ".join(["--code-size 32", "--data-base 0x30000"] + options[first:])
        expect_verdicts(wrong.split(), [file], ["refuse %d -" % (first + 1)])
    for base, number in (("0x30000", 5), ("0x10000", 6), ("0x20000", 7)):
        expect_verdicts(["--code-size", "32", "--data-base", base], [file], ["refuse %d -" % number])


def test_sizes():
    """A file's length is the code size, and only powers of two from 16 to 65,536 are taken; a module of zeros ends in a jump here."""
    for length in (16, 32, 64, 4096, 65536):
        expect_verdicts([], [module([], length)], ["accept %d" % (length // 4)])
        expect_verdicts(["--code-size", "%d" % length], [module([], length)], ["accept %d" % (length // 4)])
        for other in (length - 1, length + 1):
            expect_verdicts(["--code-size", "%d" % length], [write("other.module", (image([], length) + b"\0")[:other])], ["refuse 7 -"])
    for length in (0, 1, 4, 8, 15, 17, 24, 31, 33, 48, 65520, 65535, 65537, 131072):
        expect_verdicts([], [write("wrong.module", bytes(length))], ["refuse 2 -"])
    expect_verdicts(["--code-size", "131072"], [write("wrong.module", bytes(131072))], ["refuse 2 -"])
    expect_verdicts(["--code-size", "65536"], [write("wrong.module", bytes(131072))], ["refuse 7 -"])


def test_standard_input():
    for data, verdict in ((M, "accept 8"), (M[:28], "refuse 2 -"), (b"", "refuse 2 -"), (image([0xFFFFFFFF], 16), "refuse 8 0"),
                          (bytes(65537), "refuse 2 -"), (bytes(1 << 20), "refuse 2 -")):
        expect_verdicts([], ["-"], [verdict], data)
        expect_verdicts([], ["samples/m.module", "-"], ["accept 8", verdict], data)
        expect_verdicts([], ["-", "samples/m.module"], [verdict, "accept 8"], data)


def test_standard_input_twice():
    once = "cc100: standard input can be read only once\n"
    expect("check - -", NOT_DONE, "standard input: accept 8\n", once, data=M)
    expect("check - samples/m.module -", NOT_DONE, "standard input: accept 8\nsamples/m.module: accept 8\n", once, data=M)
    expect("check - - -", NOT_DONE, "standard input: refuse 2 -\n", once + once, data=M[:1])
    expect("check --json - -", NOT_DONE, object_of("-", "accept 8"), once, data=M)
    # A file of that name is another thing.
    write("-", M[:28])
    expect("check ./- -", REFUSED, "./-: refuse 2 -\nstandard input: accept 8\n", data=M)


def test_mixtures():
    """The status is the worst of all, in every order. A file that cannot be read has its line on standard error alone."""
    kinds = {"samples/m.module": ("accept 8", DONE), "samples/refused.module": ("refuse 22 0", REFUSED), "missing": (None, NOT_DONE)}
    files = list(kinds)
    for several in [[a, b] for a in files for b in files] + [[a, b, c] for a in files for b in files for c in files]:
        worst = max(kinds[name][1] for name in several)
        errors = "cc100: cannot open missing: No such file or directory\n" * several.count("missing")
        read = [(name, kinds[name][0]) for name in several if name != "missing"]
        expect(["check"] + several, worst, "".join("%s: %s\n" % pair for pair in read), errors)
        expect(["check", "--json"] + several, worst, "".join(object_of(*pair) for pair in read), errors)


# File names: characters that JSON has to have escaped; UTF-8 at the ends of its ranges; and bytes that are none of it: a byte that only
# goes on, cut off characters, forms that are too long, surrogates, and what lies above U+10FFFF.
NAMES = [
    'a"b', "a\\b", 'a\\"', "a\tb", "a\nb", "a\r\n", "\x01\x1f\x7f ", "'", "a b", "%s%d", "\u00e9", "\u20ac", "\U0001f600", "\ufffd",
    b"\xc2\x80", b"\xdf\xbf", b"\xe0\xa0\x80", b"\xed\x9f\xbf", b"\xee\x80\x80", b"\xef\xbf\xbf", b"\xf0\x90\x80\x80", b"\xf4\x8f\xbf\xbf",
    b"\x80", b"\xbf", b"\xff", b"\xfe.module", b"a\xe9b", b"\xc3", b"\xc3a", b"\xe2\x82", b"\xe2\x82a", b"\xe2a\x82", b"\xf0\x9f\x98",
    b"\xf0\x9f\x98z", b"\xc0\xaf", b"\xc1\xbf", b"\xe0\x80\x80", b"\xe0\x9f\xbf", b"\xf0\x80\x80\x80", b"\xf0\x8f\xbf\xbf", b"\xed\xa0\x80",
    b"\xed\xbf\xbf", b"\xf4\x90\x80\x80", b"\xf5\x80\x80\x80", b"\xf8\x88\x80\x80\x80", b"\xc3\xc3\xa9", b"\xe2\xe2\x82\xac",
]


def test_names():
    rest = [bytes(b for b in range(1, 256) if b != ord("/"))[i:i + 100] for i in (0, 100, 200)]
    random_bytes = random.Random(7)
    for _ in range(40):
        rest.append(b"r" + bytes(random_bytes.choice(b"\x7f\x80\xbf\xc2\xdf\xe0\xed\xef\xf0\xf4\xa0\x90\x8f\x9f\"\\a") for _ in range(9)))
    names = [b"n%d" % i + as_bytes(name) for i, name in enumerate(NAMES + rest)]
    for i, name in enumerate(names):
        write(name, M if i % 2 else M[:16])
    expect_verdicts([], names, ["accept 8" if i % 2 else "refuse 16 2" for i in range(len(names))])
    for name in names[:3]:
        os.remove(path_of(name))
        expect(["check", "--json", name], NOT_DONE, "", b"cc100: cannot open %s: No such file or directory\n" % name)


# Layouts, as the options name them. The first is the one that the verdict program takes.
DEFAULT = {"memory-length": 196608, "code-base": 0x10000, "code-size": None, "data-base": 0x20000, "data-size": 64}


def random_layout(r):
    """Near the one of the examples: most of these are lawful, and some are not in one place or two."""
    layout = dict(DEFAULT)
    for _ in range(r.choice([1, 1, 2, 3])):
        name = r.choice(list(layout))
        layout[name] = r.choice({
            "memory-length": [0, 65536, 131072 + 63, 131072 + 64, 16777216, 16777217, 2**32 + 196608, 2**64 - 1],
            "code-base": [0, 16, 0x8000, 0x10010, 0x10100, 0x20000, 0x2FFF0, 0x30000, 2**32 - 16, 2**32 - 1],
            "code-size": [0, 8, 16, 24, 32, 64, 256, 65536, 131072, 2**31, 2**32 - 1],
            "data-base": [0, 4, 64, 0x10000, 0x10020, 0xFFC0, 0x20010, 0x2FFC0, 0x30000, 2**32 - 64],
            "data-size": [0, 1, 2, 4, 8, 16, 32, 60, 128, 65536, 131072, 2**32 - 1],
        }[name])
    return layout


def guarded(r):
    """An access, JR or JALR with its guard, wrong in about every third."""
    base, source, jump = r.choice([1, 8, 31]), r.randrange(32), r.random() < 0.2
    width = r.choice([1, 2, 4])
    whole = (4 << r.randrange(5)) - width
    mask = r.choice([0, 16, 48, 0x10, 0xF0]) if jump else r.choice([whole, whole, whole, 32, 52, 56]) | r.choice([0, 0, 0, width // 2])
    offset = r.choice([0, 0, width, 64 - width, 65536 - width])
    opcode = {1: [0x20, 0x24, 0x28], 2: [0x21, 0x25, 0x29], 4: [0x23, 0x2B, 0x30, 0x38]}[width]
    words = [0x30000000 | source << 21 | base << 16 | mask, 0x00000025 | base << 21 | (27 if jump else 26) << 16 | base << 11]
    words.append(base << 21 | r.choice([8, 9 | 5 << 11]) if jump else r.choice(opcode) << 26 | base << 21 | r.randrange(26) << 16 | offset)
    if r.random() < 0.3:
        words[r.randrange(3)] ^= 1 << r.randrange(32)
    return words


def random_word(r):
    """Any word, arithmetic, branches and jumps near by, and what 8 to 13 are about."""
    return r.choice([
        0, 0, r.getrandbits(32), 0x24000000 | r.getrandbits(26), 0x00000021 | r.getrandbits(15) << 11, 0x00000034, 0x0000000C,
        0x10000000 | r.randrange(8), 0x1000FFF8 | r.randrange(8), 0x08004000 | r.randrange(10), 0x08004000 | r.randrange(10),
        0x40006000, 0x0000000D | r.choice([14, 15]) << 6, 0x3C000000 | r.choice([8, 26, 27]) << 16, 0x04110000 | r.choice([8, 31]) << 21,
        0x0000F809 | r.choice([8, 31]) << 21, 0x8D090000, 0x03E00008,
    ])


def random_module(r, samples):
    """The bytes of a module: a sample with some words or bytes changed, or guards and words in any order, some of it cut off."""
    if r.random() < 0.4:
        words = list(r.choice(samples))
        for _ in range(r.choice([0, 1, 1, 2, 3])):
            words[r.randrange(len(words))] = r.choice([random_word(r), words[r.randrange(len(words))] ^ 1 << r.randrange(32)])
    else:
        words, count, zeros = [], r.choice([4, 8, 8, 16, 64]), r.choice([0.2, 0.9])
        while len(words) < count:
            words += guarded(r) + [0] if r.random() < 0.5 else [0 if r.random() < zeros else random_word(r) for _ in range(4)]
        if r.random() < 0.8:
            words[-2:] = [modules.JUMP, 0]
            words[-3] = r.choice([0, 0, 0, words[-3], modules.JUMP])
    made = struct.pack("<%dI" % len(words), *words)
    return made[:r.randrange(len(made))] if r.random() < 0.05 else made


def random_straight(r):
    """The bytes of a straight-through module: accesses with their guards, zeros and branches ahead, some words of it changed."""
    count, body = r.choice([4, 8, 16, 64]), []
    while len(body) < count - 4:
        branch = 0x10000000 | r.randrange(1, 4 + count - len(body))
        body += r.choice([guarded(r) + [0], [0, 0, 0, 0], [branch, 0, r.choice([0, random_word(r)]), 0]])
    words = straight_words(body, 4 * count)
    for _ in range(r.choice([0, 1, 1, 2])):
        place = r.choice([r.randrange(count), count - 1 - r.randrange(4)])
        words[place] = r.choice([random_word(r), words[place] ^ 1 << r.randrange(32), words[r.randrange(count)]])
    return struct.pack("<%dI" % count, *words)


def emulated_verdict(name, layout, length, checker="check"):
    size = length if layout["code-size"] is None else layout["code-size"]
    numbers = [layout["memory-length"], layout["code-base"], size, layout["data-base"], layout["data-size"]]
    return run([checker, name] + ["%d" % number for number in numbers], program="emulated").out.decode().rstrip("\n")


def test_random_modules():
    """The verdicts of the second emulator and, in the default layout, of the verdict program; all of document 01's, 22 and 25 are among them."""
    r = random.Random(20261116)
    samples = []
    for name in ("m", "margin", "overflow", "refused", "forgotten", "holes"):
        with open(path_of("samples/%s.module" % name), "rb") as file:
            content = file.read()
        samples.append(struct.unpack("<%dI" % (len(content) // 4), content))
    met = set()
    for layout in [DEFAULT] * 12 + [random_layout(r) for _ in range(40)]:
        contents = [random_module(r, samples) for _ in range(20 if layout is DEFAULT else 6)]
        names = [write("random%d.module" % i, content) for i, content in enumerate(contents)]
        verdicts = [emulated_verdict(name, layout, len(content)) for name, content in zip(names, contents)]
        options = ["--%s=%d" % (name, number) for name, number in layout.items() if number is not None and layout is not DEFAULT]
        expect_verdicts(options, names, verdicts)
        if layout is DEFAULT:
            came = [run([], content, program="verdict").out.decode().rstrip("\n") for content in contents]
            equal(["check"] + names, "the verdict program's lines", verdicts, came)
        met.update(verdict.split()[1] if verdict.startswith("refuse") else "accept" for verdict in verdicts)
    equal(["check"], "verdicts that were met", {"accept", "22", "25"} | {"%d" % number for number in range(1, 17)}, met)


def test_random_straight_modules():
    """The same with --straight: all numbers of the checker are met, 20 to 22 and 25 among them."""
    r, met = random.Random(20261117), set()
    for layout in [DEFAULT] * 12 + [random_layout(r) for _ in range(40)]:
        contents = [random_straight(r) for _ in range(30 if layout is DEFAULT else 6)]
        names = [write("random%d.module" % i, content) for i, content in enumerate(contents)]
        verdicts = [emulated_verdict(name, layout, len(content), "straight") for name, content in zip(names, contents)]
        options = ["--%s=%d" % (name, number) for name, number in layout.items() if number is not None and layout is not DEFAULT]
        expect_verdicts(["--straight"] + options, names, verdicts)
        met.update(verdict.split()[1] if verdict.startswith("refuse") else "accept" for verdict in verdicts)
    equal(["check", "--straight"], "verdicts that were met", {"accept", "20", "21", "22", "25"} | {"%d" % number for number in range(1, 17)}, met)
