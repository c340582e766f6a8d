#!/usr/bin/env python3
"""Compares what cc100 list prints with what GNU objdump prints for the same words, which words.txt holds.

compare.py CC100 needs Python and that program only. The table of docs/INSTRUCTIONS.md says which words are instructions. Where objdump's
text is not what cc100 must print, a rule of DIFFERENCES makes the one from the other; all else must be the same.
"""
import collections
import pathlib
import re
import struct
import subprocess
import sys
import tempfile

HERE = pathlib.Path(__file__).resolve().parent
WORDS = HERE / "words.txt"
TABLE = HERE.parent.parent / "docs" / "INSTRUCTIONS.md"
CONTROL = (8, 12, 13, 14)
FEWEST_WORDS = 10000  # of the 72; with fewer, words.txt is not whole
SHOWN = 20  # differences; one mistake in the program can make hundreds
# What cc100 list prints for a word. The marks of guards and the notes on targets are its own, and objdump has nothing like them.
LISTED = re.compile(r" {0,4}(\d+)  0x([0-9a-f]{8})  ([0-9a-f]{8})  [ /|\\] (\S+)(?: +(\S+))?(?:  \((?:word \d+|outside the module)\))?")

Encoding = collections.namedtuple("Encoding", "name bits mask fixed")
Line = collections.namedtuple("Line", "address word text")
Difference = collections.namedtuple("Difference", "name fewest rule reason")


def read_table():
    """The 72 encodings. The mask has a 1 for each bit that is fixed."""
    rows = re.findall(r"^\| (\d+) \| (\w+) \| [\d.]+ \| `([01a-z ]+)` \|", TABLE.read_text(encoding="utf-8"), re.M)
    assert [int(number) for number, _, _ in rows] == list(range(1, 73)), "the table does not have its 72 rows"
    made = []
    for _, name, spaced in rows:
        bits = spaced.replace(" ", "")
        assert len(bits) == 32, name
        mask, fixed = (int("".join("1" if c in chosen else "0" for c in bits), 2) for chosen in ("01", "1"))
        made.append(Encoding(name.lower(), bits, mask, fixed))
    return made


ENCODINGS = read_table()
NAMES = {e.name for e in ENCODINGS}


def name_of(word):
    """The instruction that a word is by document 01, or an empty text."""
    names = [e.name for e in ENCODINGS if word & e.mask == e.fixed and ("c" not in e.bits or word >> 11 & 31 in CONTROL)]
    assert len(names) < 2, names
    return "".join(names)


# The rules. Each takes the instruction that a word is, the word and objdump's text, and gives what cc100 must print, or None where the rule
# does not apply. They look at objdump's text too: where it says something new, no rule hides that.


def sync_stype(name, word, text):
    return "sync 0x%x" % (word >> 6 & 31) if name == "sync" and text == ".word 0x%x" % word else None


def sync_p(name, word, text):
    return "sync 0x10" if name == "sync" and text == "sync.p" else None


def break_code(name, word, text):
    codes = re.fullmatch(r"break 0x([0-9a-f]+)(?:,0x([0-9a-f]+))?", text) if name == "break" else None
    return "break 0x%x" % (int(codes[1], 16) << 10 | int(codes[2] or "0", 16)) if codes else None


def zero_word(name, word, text):
    return "nop" if text == "sll $0,$0,0x0" else None


def neg(name, word, text):
    return re.sub(r"^neg (\$\d+),", r"sub \1,$0,", text) if name == "sub" and text.startswith("neg ") else None


def negu(name, word, text):
    return re.sub(r"^negu (\$\d+),", r"subu \1,$0,", text) if name == "subu" and text.startswith("negu ") else None


def other_control(name, word, text):
    register = re.fullmatch(r"m[ft]c0 \$\d+,\$(\d+)", text) if not name else None
    return ".word 0x%x" % word if register and int(register[1]) not in CONTROL else None


def other_instruction(name, word, text):
    return ".word 0x%x" % word if not name and text.split()[0] not in NAMES | {".word"} else None


# How often a rule must be met: one that is met less often is not needed, or is not tried by words.txt.
OFTEN, FIXED_WORD = 20, 1
DIFFERENCES = [
    Difference("SYNC's stype", OFTEN, sync_stype, "document 01 keeps every stype; objdump knows 0 and 16 for this processor"),
    Difference("SYNC.P", FIXED_WORD, sync_p, "objdump's own name of SYNC with stype 16; document 01 has one SYNC"),
    Difference("BREAK's code", OFTEN, break_code, "20 bits in document 01; objdump has two codes of ten, and leaves out a second 0"),
    Difference("NOP", FIXED_WORD, zero_word, "the common name of the zero word; objdump was asked for no short forms"),
    Difference("NEG", OFTEN, neg, "a short form of SUB with rs 0, which objdump writes although asked not to"),
    Difference("NEGU", OFTEN, negu, "the same for SUBU"),
    Difference("other control registers", OFTEN, other_control, "in document 01 MFC0 and MTC0 take 8, 12, 13 and 14 only"),
    Difference("other instructions", OFTEN, other_instruction, "objdump knows more than the 72; by document 01 these words are none"),
]


def stored():
    """objdump's lines."""
    lines = [line.split(" ", 2) for line in WORDS.read_text(encoding="utf-8").splitlines() if line and not line.startswith("#")]
    return [Line(int(address.rstrip(":"), 16), int(word, 16), text) for address, word, text in lines]


def modules(lines):
    """Lines whose addresses follow each other are those of one module."""
    made = []
    for line in lines:
        if not made or line.address != made[-1][-1].address + 4:
            made.append([])
        made[-1].append(line)
    return made


def listing(program, module):
    """The program's status, and the lines that it prints for a module's words; between bundles are empty ones, which are left out."""
    with tempfile.TemporaryDirectory() as folder:
        path = pathlib.Path(folder, "words.module")
        path.write_bytes(struct.pack("<%dI" % len(module), *(line.word for line in module)))
        command = [program, "list", "--code-base", "0x%x" % module[0].address, str(path)]
        done = subprocess.run(command, stdout=subprocess.PIPE, encoding="utf-8", errors="replace")
    return done.returncode, [line for line in done.stdout.splitlines() if line]


def wanted(name, line, met):
    """What cc100 must print where objdump printed this line. Counts the rule that says so, if one does."""
    for difference in DIFFERENCES:
        text = difference.rule(name, line.word, line.text)
        if text is not None:
            met[difference.name] += 1
            return text
    return line.text


def problem_of(index, name, line, text, came):
    """What is wrong with the line that came, or None. Two programs could be wrong alike: what is wanted must fit the table as well."""
    if text.split()[0] != ("nop" if line.word == 0 else name or ".word"):
        return "by the table it is %s, and objdump prints %s" % (name or "no instruction", line.text)
    parts = LISTED.fullmatch(came)
    if not parts:
        return "cc100's line has another form: %s" % came
    number, address, word, *rest = parts.groups()
    if (int(number), int(address, 16), int(word, 16)) != (index, line.address, line.word):
        return "cc100 prints another index, address or word: %s" % came
    shown = " ".join(part for part in rest if part)
    return None if shown == text else "objdump prints %s; cc100 must print %s, and prints %s" % (line.text, text, shown)


def compare_module(program, module, met, names):
    """The differences of a module. Counts the rules and the instructions that are met."""
    status, came = listing(program, module)
    wrong = []
    if status != 0 or len(came) != len(module):
        wrong.append("cc100 list ends with status %d and prints %d lines for %d words" % (status, len(came), len(module)))
    for index, line in enumerate(module):
        name = name_of(line.word)
        names[name] += 1
        text = wanted(name, line, met)
        problem = problem_of(index, name, line, text, came[index] if index < len(came) else "(nothing)")
        if problem:
            wrong.append("0x%08x %08x: %s" % (line.address, line.word, problem))
    return wrong


def too_few(met, names):
    """What words.txt has too little of."""
    idle = [d for d in DIFFERENCES if met[d.name] < d.fewest]
    found = ["the rule for %s is met %d times, of at least %d" % (d.name, met[d.name], d.fewest) for d in idle]
    words = sum(names[name] for name in NAMES)
    if words < FEWEST_WORDS:
        found.append("there are %d words of the 72, of at least %d" % (words, FEWEST_WORDS))
    return found + ["there is no word of %s" % name for name in sorted(NAMES - set(names))]


def compare(program):
    """Compares all words and prints what was found. Gives whether all is well."""
    met, names, wrong = collections.Counter(), collections.Counter(), []
    for module in modules(stored()):
        wrong += compare_module(program, module, met, names)
    for text in wrong[:SHOWN]:
        print("DIFFERS", text)
    if len(wrong) > SHOWN:
        print("and %d more" % (len(wrong) - SHOWN))
    few = too_few(met, names)
    for text in few:
        print("TOO FEW", text)
    ruled = ", ".join("%s %d" % (d.name, met[d.name]) for d in DIFFERENCES)
    print("words that are no instruction: %d; words with a rule: %s" % (names[""], ruled))
    print("objdump: %d words, %d instructions, %d differences" % (sum(names.values()), len(NAMES & set(names)), len(wrong)))
    return not wrong and not few


if __name__ == "__main__":
    if len(sys.argv) != 2:
        print("usage: compare.py CC100", file=sys.stderr)
        sys.exit(2)
    try:
        sys.exit(0 if compare(sys.argv[1]) else 1)
    except OSError as problem:
        sys.exit("compare: %s" % problem)
