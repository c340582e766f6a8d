#!/usr/bin/env python3
"""Gives the vectors of vectors.txt as cases of crates/steps and the lines that they must give, which are QEMU's results and nothing else.

cases.py PROGRAM runs a program that takes such cases, target/bin/steps, on them and compares.
"""
import pathlib
import struct
import subprocess
import sys

VECTORS = pathlib.Path(__file__).with_name("vectors.txt")
MEMORY = 84
PC, NEXT, LL, STATUS = 34, 35, 36, 38
NAMES = ["r%d" % i for i in range(32)] + ["hi", "lo", "pc", "next", "ll"]
WORD = 0xFFFFFFFF
USER_MODE = 8


def values(items):
    """The words of the state, by their place, and the bytes of memory, by their address, that a column names."""
    words, memory = {}, {}
    for name, value in (item.split("=") for item in items):
        if name in NAMES:
            words[NAMES.index(name)] = int(value, 16)
        else:
            memory.update(enumerate(bytes.fromhex(value), int(name[1:])))
    return words, memory


def raw_case(code, steps, words, memory):
    """The 256 bytes of a case: what the vector names, and else the patterns that the head of vectors.txt explains."""
    state = [i * 0x01010101 for i in range(41)]
    state[PC], state[LL], state[STATUS] = 16, 0, USER_MODE
    for place, value in words.items():
        state[place] = value
    state[NEXT] = state[PC] + 4
    data = bytearray(37 * address + 11 & 255 for address in range(MEMORY))
    for address, value in memory.items():
        data[address] = value
    placed = struct.pack("<%dI" % len(code), *code)
    data[state[PC]:state[PC] + len(placed)] = placed
    assert len(data) == MEMORY
    return struct.pack("<43I", *state, MEMORY, steps) + bytes(data)


def wanted_line(number, words, memory):
    """What crates/steps must print. No vector ends before a slot, so that the following instruction is always the next one."""
    if PC in words:
        words = {**words, NEXT: words[PC] + 4 & WORD}
    text = number + "".join(" %d=%08x" % item for item in sorted(words.items()))
    return text + "".join(" m%d=%02x" % item for item in sorted(memory.items()))


def read_vector(text):
    """A case and its line."""
    _, code, given, result = (column.split() for column in text.split("|"))
    return raw_case([int(word, 16) for word in code], int(given[0]), *values(given[1:])), wanted_line(result[0], *values(result[1:]))


def vectors():
    return [line for line in VECTORS.read_text().splitlines() if line and not line.startswith("#")]


def cases():
    """All cases, each with its line."""
    return [read_vector(text) for text in vectors()]


def compare(program):
    """Prints where a program gives another line; gives how often."""
    made = cases()
    done = subprocess.run([program], input=b"".join(raw for raw, _ in made), stdout=subprocess.PIPE, check=True)
    came = done.stdout.decode().splitlines()
    assert len(came) == len(made), "%d lines for %d cases" % (len(came), len(made))
    different = [(text, line) for text, (_, wanted), line in zip(vectors(), made, came) if line != wanted]
    for text, line in different:
        print("DIFFERS %s; came %s" % (text, line))
    print("MIPS vectors: %d cases, %d differ" % (len(made), len(different)))
    return len(different)


if __name__ == "__main__":
    if len(sys.argv) != 2:
        sys.exit("usage: cases.py PROGRAM")
    sys.exit(compare(sys.argv[1]) != 0)
