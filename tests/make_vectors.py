#!/usr/bin/env python3
"""Makes the cases of crates/vectors, from the table of encodings in docs/INSTRUCTIONS.md.

Run it from anywhere; it writes crates/vectors/stdin (28 bytes a case) and, by `make expected`, crates/vectors/stdout (a line a case): what
the cases must give by the emulator in tests/emulator.
"""
import pathlib
import random
import re
import struct
import subprocess

ROOT = pathlib.Path(__file__).resolve().parent.parent
CONTROL = (8, 12, 13, 14)
FIELDS = {"s": "rs", "t": "rt", "d": "rd", "c": "rd", "h": "shift", "v": "value"}
NAMES = ("rs", "rt", "rd", "shift", "value")
# Every word that document 01 quotes.
QUOTED = [
    0x42000010, 0xFFFFFFFF, 0x3C1A0000, 0x07F10000, 0xAD090000, 0x03E00008, 0x08004000, 0x08004007, 0x1000FFFF,
    0x3108003C, 0x011A4025, 0x0000000C, 0x00000000, 0x3108003F, 0x31080040, 0x08004001,
]


def patterns():
    rows = re.findall(r"^\| (\d+) \| (\w+) \| [\d.]+ \| `([^`]+)` \|", (ROOT / "docs/INSTRUCTIONS.md").read_text(), re.M)
    assert [int(n) for n, _, _ in rows] == list(range(1, 73))
    return [(int(n), name, bits.replace(" ", "")) for n, name, bits in rows]


def places(bits, letter):
    return [31 - i for i, c in enumerate(bits) if c == letter]


def fits(bits, word):
    for i, c in enumerate(bits):
        if c in "01" and (word >> (31 - i)) & 1 != int(c):
            return False
    return "c" not in bits or (word >> 11) & 31 in CONTROL


def name_of(word):
    """The instruction's name, or an empty one."""
    return "".join(name for _, name, bits in TABLE if fits(bits, word))


def word_of(kind, *values):
    """The word of a kind with fields that fit it; values of fields that it does not have are 0."""
    bits = TABLE[kind - 1][2]
    left = dict(zip(NAMES, values))
    word = int("".join("1" if c == "1" else "0" for c in bits), 2)
    for letter, field in FIELDS.items():
        spots = places(bits, letter)
        if spots:
            x = left.pop(field)
            assert x < 1 << len(spots), (kind, field)
            word |= sum((x >> k & 1) << p for k, p in enumerate(reversed(spots)))
    assert not any(left.values()), kind
    return word


def random_fields(rng, bits):
    got = dict.fromkeys(NAMES, 0)
    for letter, field in FIELDS.items():
        size = len(places(bits, letter))
        if size:
            got[field] = rng.choice(CONTROL) if letter == "c" else rng.getrandbits(size)
    return [got[f] for f in NAMES]


def cases():
    rng = random.Random(100)
    words, writes = list(QUOTED), []
    for kind, _, bits in TABLE:
        fixed = int("".join("1" if c == "1" else "0" for c in bits), 2)
        ones = int("".join("0" if c == "0" else "1" for c in bits), 2)
        words += [fixed, ones]
        for _ in range(2):
            fields = random_fields(rng, bits)
            words.append(word_of(kind, *fields))
            writes.append([kind] + fields)
        # the neighbours with one fixed zero bit set
        legal = writes[-1]
        words += [word_of(*legal) | 1 << p for p in places(bits, "0")]
        # each field one too wide, and each field that the kind does not have
        for j, field in enumerate(NAMES):
            size = sum(len(places(bits, letter)) for letter, f in FIELDS.items() if f == field)
            wrong = list(legal)
            wrong[j + 1] = 1 << size
            writes.append(wrong)
            if size:
                widest = list(legal)
                widest[j + 1] = (1 << size) - 1
                writes.append(widest)
    words += [op << 26 for op in range(64)] + [funct for funct in range(64)]
    words += [1 << 26 | rt << 16 for rt in range(32)] + [16 << 26 | rs << 21 | 12 << 11 for rs in range(32)]
    words += [16 << 26 | rs << 21 | rd << 11 for rs in (0, 4) for rd in range(32)]
    words += [rng.getrandbits(32) for _ in range(200)]
    writes += [[kind, 0, 0, 0, 0, 0] for kind in (0, 73, 0xFFFFFFFF)]
    writes.append([44, 0, 1, 2, 32, 0])
    return list(dict.fromkeys(words)), writes


def expected():
    """Writes what the programs must print anew."""
    subprocess.run(["make", "-s", "-C", ROOT, "expected"], check=True)


TABLE = patterns()

if __name__ == "__main__":
    words, writes = cases()
    raw = b"".join(struct.pack("<7I", 0, w, 0, 0, 0, 0, 0) for w in words) + b"".join(struct.pack("<7I", 1, *c) for c in writes)
    assert len(raw) <= 65536, len(raw)
    (ROOT / "crates/vectors/stdin").write_bytes(raw)
    expected()
    print(len(words), "words to read,", len(writes), "instructions to write")
