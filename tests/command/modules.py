"""Modules made of words, for the tests."""
import struct

from program import write

CODE_BASE = 0x10000
DATA_BASE = 0x20000
MEMORY_LENGTH = 196608
DATA_SIZE = 64
LARGEST = 65536      # bytes of a module
TRAP = 0x00000034    # TEQ 0,0, which is always met
JUMP = 0x08004000    # to the first word, with the code at CODE_BASE


def image(words, length=16):
    """The bytes of a module: these words, then zeros, with a jump to the first word in the last word but one unless a word stands there."""
    count = length // 4
    filled = (list(words) + [0] * count)[:count]
    if len(words) < count - 1:
        filled[count - 2] = JUMP
    return struct.pack("<%dI" % count, *filled)


def module(words, length=16, name="tried.module"):
    """Writes such a module into the folder of the tests, and gives its name."""
    return write(name, image(words, length))


def straight_words(words, length):
    """All words of a straight-through module: these, then zeros, and the last bundle: SYSCALL 0, a zero word, J to it, a zero word."""
    count = length // 4
    return list(words) + [0] * (count - 4 - len(words)) + [0x0000000C, 0, JUMP + count - 4, 0]


def write_words(words, name="tried.module"):
    """Writes a module of just these words, and gives its name."""
    return write(name, struct.pack("<%dI" % len(words), *words))
