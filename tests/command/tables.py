"""cc100 tables: what stands at each place, beside docs/INSTRUCTIONS.md, the second emulator and the listing.

The tables are worked out here from the words that the emulator writes for the 72, and again from the encodings of docs/INSTRUCTIONS.md: an
opcode that several instructions have leads to another table.
"""
import collections
import itertools
import json
import random
import re
import struct

from documents import text_of
from program import DONE, equal, expect, run, write

PAGE = "docs/INSTRUCTIONS.md"
Field = collections.namedtuple("Field", "heading high low")
# In the order of the command, by name. The three after the first are of the opcodes to which the instruction set gives these names.
FIELDS = {
    "opcode": Field("By the opcode, bits 31 to 26:", 31, 26), "SPECIAL": Field("SPECIAL, by the function, bits 5 to 0:", 5, 0),
    "REGIMM": Field("REGIMM, by rt, bits 20 to 16:", 20, 16), "COP0": Field("COP0, by rs, bits 25 to 21:", 25, 21),
}
MARKERS = {0: "SPECIAL", 1: "REGIMM", 16: "COP0"}  # by opcode
NONE = "-"
CONTROL = (8, 12, 13, 14)
WORDS = 16384  # the most that a module has

Encoding = collections.namedtuple("Encoding", "name bits fixed value")  # fixed has a 1 for each bit that is, value what it is


def encodings():
    """The 72 of the page."""
    made = []
    for name, spaced in re.findall(r"^\| \d+ \| (\w+) \| [\d.]+ \| `([01a-z ]+)` \|", text_of(PAGE), re.M):
        bits = spaced.replace(" ", "")
        fixed, value = (int("".join("1" if c in chosen else "0" for c in bits), 2) for chosen in ("01", "1"))
        made.append(Encoding(name.lower(), bits, fixed, value))
    return made


def part(word, field):
    return word >> field.low & (1 << field.high - field.low + 1) - 1


def empty():
    return {name: [NONE] * (1 << field.high - field.low + 1) for name, field in FIELDS.items()}


def made_of(named):
    """The tables of these instructions, pairs of a name and a word. An opcode of several is told by its marker, or by all of their names."""
    tables, by_opcode = empty(), collections.defaultdict(list)
    for name, word in named:
        by_opcode[part(word, FIELDS["opcode"])].append((name, word))
    for opcode, members in by_opcode.items():
        several = len(members) > 1
        tables["opcode"][opcode] = MARKERS.get(opcode, " or ".join(name for name, _ in members)) if several else members[0][0]
        for name, word in members if several and opcode in MARKERS else []:
            further, place = tables[MARKERS[opcode]], part(word, FIELDS[MARKERS[opcode]])
            further[place] = name if further[place] == NONE else further[place] + " or " + name
    return tables


def written(tables):
    """The text of tables: eight places to a row."""
    texts = []
    for name, field in FIELDS.items():
        bits = field.high - field.low + 1
        lines = ["%-8s" % "" + "".join("%-9s" % ("." * (bits - 3) + format(column, "03b")) for column in range(8))]
        for row in range(len(tables[name]) // 8):
            lines.append("%-8s" % (format(row, "0%db" % (bits - 3)) + "...") + "".join("%-9s" % text for text in tables[name][8 * row:8 * row + 8]))
        texts.append(field.heading + "\n\n" + "".join(line.rstrip() + "\n" for line in lines))
    return "\n".join(texts)


def emulated():
    """The names and words that the emulator writes."""
    lines = run(["words"], program="emulated").out.decode().splitlines()
    return [(name.lower(), int(word, 16)) for name, word in (line.split() for line in lines)]


def came():
    """The tables as the command's lines have them."""
    tables = empty()
    for (name, places), text in zip(tables.items(), run("tables").out.decode().split("\n\n")[1::2]):
        places[:] = [word for line in text.split("\n")[1:] for word in line.split()[1:]]
    return tables


def test_emulator():
    named = emulated()
    equal(["tables"], "the emulator's names", 72, len(set(name for name, _ in named)))
    expect("tables", DONE, written(made_of(named)))


def test_encodings():
    """The encodings of the page give the same, and fix every bit that the tables go by."""
    read = encodings()
    equal(["tables"], "the number of encodings", 72, len(read))
    expect("tables", DONE, written(made_of([(e.name, e.value) for e in read])))
    for e in read:
        opcode = part(e.value, FIELDS["opcode"])
        for field in [FIELDS["opcode"]] + ([FIELDS[MARKERS[opcode]]] if opcode in MARKERS else []):
            equal(["tables"], "bits of %s that are fixed" % e.name, (1 << field.high - field.low + 1) - 1, part(e.fixed, field))


def test_page():
    """The page has the command's text, word for word, in the section of the tables."""
    section = text_of(PAGE).split("\n## The four tables\n", 1)[1].split("\n## ", 1)[0]
    blocks = re.findall(r"^```\n(.*?)^```$", section, re.M | re.S)
    equal(["tables"], "the number of blocks", 1, len(blocks))
    expect("tables", DONE, blocks[0])


def test_once():
    """Each of the 72 has exactly one entry, and so has each of the three that lead on."""
    names = [e.name for e in encodings()] + list(MARKERS.values())
    met = collections.Counter(name for places in came().values() for name in places)
    equal(["tables"], "places", [64, 64, 32, 32], [len(places) for places in came().values()])
    equal(["tables"], "places that no instruction has", 64 + 64 + 32 + 32 - 75, met.pop(NONE))
    equal(["tables"], "entries", {name: 1 for name in names}, dict(met))


def test_json():
    """The same for a script: an object for each table, and null where there is nothing."""
    objects = [{"table": name, "highest_bit": FIELDS[name].high, "lowest_bit": FIELDS[name].low,
                "places": [None if text == NONE else text for text in places]} for name, places in came().items()]
    expect("tables --json", DONE, "".join(json.dumps(one, separators=(",", ":")) + "\n" for one in objects))


def looked_up(tables, drawings, word):
    """The name in a listing, as the page says to look it up: by the opcode, by the other field, and by the bits that an encoding fixes."""
    name = tables["opcode"][part(word, FIELDS["opcode"])]
    if name in FIELDS:
        name = tables[name][part(word, FIELDS[name])]
    e = drawings.get(name)
    if e is None or word & e.fixed != e.value or ("c" in e.bits and word >> 11 & 31 not in CONTROL):
        return ".word"
    return name if word else "nop"


def some_words():
    """Words of each of the 72, whole and with one bit changed; every opcode with each number in each other field; and any words."""
    rng = random.Random(20261117)
    words = []
    for e in encodings():
        drawn = [e.value | rng.getrandbits(32) & ~e.fixed for _ in range(40)]
        words += drawn + [word ^ 1 << rng.randrange(32) for word in drawn]
    for opcode, (name, places) in itertools.product(range(64), empty().items()):
        words += [opcode << 26 | place << FIELDS[name].low for place in range(len(places)) if name != "opcode"]
    return words + [rng.getrandbits(32) for _ in range(WORDS - len(words))]


def test_listing():
    """Words looked up in the command's tables, beside its listing."""
    words, tables, drawings = some_words(), came(), {e.name: e for e in encodings()}
    name = write("tried.module", struct.pack("<%dI" % len(words), *words))
    lines = [line for line in run(["list", name]).out.decode().split("\n") if line]
    equal(["list", name], "lines", WORDS, len(lines))
    wrong = [line for line, word in zip(lines, words) if line[31:].split()[0] != looked_up(tables, drawings, word)]
    equal(["list", name], "instructions that the tables do not say", [], wrong)
