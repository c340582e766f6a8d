"""cc100 areas: records made, areas given, taken back and shown, beside a keeper written here; what is refused and said of it; several processes
at once, files that cannot be used, and calls that are interrupted."""
import fcntl
import json
import os
import random
import re
import resource
import shutil
import signal
import subprocess
import time

from check import escaped
from files import OTHER_USER, as_other_user, closes
from program import DONE, NOT_DONE, REFUSED, TIMEOUT, Came, compare, environment, equal, expect, path_of, programs, run, skip, write
from running import MEANINGS

KEPT, LENGTH, SIXTEEN = 1048576, 65536, 16
SIZES = [1 << k for k in range(4, 17)]
RECORD = "keeper.record"
ACTIONS = ("new", "give SIZE", "back BASE SIZE", "show")
PROCESSES, GIVES = 8, 50
SOON = 0.3  # seconds, in which a call that does not wait has ended many times over


class Keeper:
    """What is out, by base; ticket 6 of document 02, on areas and not on bytes."""

    def __init__(self, out=()):
        self.out = dict(out)

    def overlaps(self, base, size):
        return any(base < other + length and other < base + size for other, length in self.out.items())

    def lowest(self, size):
        """The base for a size, or None."""
        return next((base for base in range(0, KEPT, size) if not self.overlaps(base, size)), None)

    def largest(self):
        return next((size for size in reversed(SIZES) if self.lowest(size) is not None), 0)

    def free(self):
        return KEPT - sum(self.out.values())

    def record(self):
        record = bytearray(LENGTH)
        for base, size in self.out.items():
            record[base // SIXTEEN] = size.bit_length() - 1
        return bytes(record)


def put(record):
    """Writes the record of the tests."""
    write(RECORD, record)


def changed(*changes, of=bytes(LENGTH)):
    """A record with other bytes at some addresses of the memory."""
    record = bytearray(of)
    for address, byte in changes:
        record[address // SIXTEEN] = byte
    return bytes(record)


def content(name=RECORD):
    with open(path_of(name), "rb") as file:
        return file.read()


def areas(action, *options):
    """The arguments of an action on the record of the tests."""
    return ["areas"] + list(options) + [RECORD] + action.split()


def line(base, size):
    return "0x%08x %d\n" % (base, size)


def refused_text(action, number, finding=None, name=RECORD):
    said = "cc100: %s: %s is refused, number %d: %s\n" % (name, action.split()[0], number, MEANINGS[number])
    return said + ("cc100: %s: %s\n" % (name, finding) if finding else "")


def refused_object(number, finding=None):
    return '{"event":"refused","file":"%s","number":%d%s}\n' % (RECORD, number, ',"finding":"%s"' % finding if finding else "")


def expect_refused(action, number, finding=None):
    """As text and as an object; every byte of the file stays."""
    before = content()
    expect(areas(action), REFUSED, "", refused_text(action, number, finding))
    came = expect(areas(action, "--json"), REFUSED, refused_object(number, finding), refused_text(action, number, finding))
    equal(areas(action), "what a JSON reader takes", number, json.loads(came.out)["number"])
    equal(areas(action), "whether the record is as it was", True, content() == before)


def expect_given(keeper, size):
    """Gives the base."""
    base = keeper.lowest(size)
    expect(areas("give %d" % size), DONE, line(base, size))
    keeper.out[base] = size
    equal(areas("give %d" % size), "whether the record is right", True, content() == keeper.record())
    return base


def expect_taken_back(keeper, base):
    size = keeper.out.pop(base)
    expect(areas("back 0x%x %d" % (base, size)), DONE, line(base, size))
    equal(areas("back 0x%x %d" % (base, size)), "whether the record is right", True, content() == keeper.record())


def place(keeper, base):
    """What the picture has for the 1,024 bytes from a base on."""
    out = sum(max(0, min(base + 1024, other + size) - max(base, other)) for other, size in keeper.out.items())
    return "." if out == 0 else "#" if out == 1024 else "+"


def picture(keeper):
    return "".join("0x%08x  %s\n" % (first, "".join(place(keeper, base) for base in range(first, first + 65536, 1024)))
                   for first in range(0, KEPT, 65536))


def expect_shown(keeper):
    """As text and as objects, with the list and without."""
    totals = (len(keeper.out), KEPT - keeper.free(), keeper.free(), keeper.largest())
    text = picture(keeper) + "\nareas out     %d\nbytes out     %d\nbytes free    %d\nlargest free  %d\n" % totals
    rows = [(base, base + size, size) for base, size in sorted(keeper.out.items())]
    listed = "\nbase        end         size\n" + "".join("0x%08x  0x%08x  %d\n" % row for row in rows)
    whole = '{"event":"record","file":"%s","areas":%d,"out":%d,"free":%d,"largest":%d}\n' % ((RECORD,) + totals)
    objects = "".join('{"event":"area","base":%d,"end":%d,"size":%d}\n' % row for row in rows)
    expect(areas("show"), DONE, text)
    expect(areas("show", "--list"), DONE, text + listed)
    expect(areas("show", "--json"), DONE, whole)
    came = expect(areas("show", "--json", "--list"), DONE, whole + objects)
    read = [json.loads(text) for text in came.out.decode().splitlines()]
    equal(areas("show", "--json", "--list"), "areas that a JSON reader takes", rows, [(a["base"], a["end"], a["size"]) for a in read[1:]])


def remove(name=RECORD):
    if os.path.exists(path_of(name)):
        os.remove(path_of(name))


def test_new():
    """An empty record, and never over a file that is there."""
    for options, out in (((), ""), (("--json",), '{"event":"new","file":"%s"}\n' % RECORD)):
        remove()
        expect(areas("new", *options), DONE, out)
        equal(areas("new"), "whether the record is zeros", True, content() == bytes(LENGTH))
    for there in (bytes(LENGTH), changed((16, 4)), b"", b"a text\n"):
        put(there)
        expect(areas("new"), NOT_DONE, "", "cc100: %s is there already; it is left as it is\n" % RECORD)
        equal(areas("new"), "whether the file is as it was", True, content() == there)
    for name in ("samples", "/dev/null"):
        expect(["areas", name, "new"], NOT_DONE, "", "cc100: %s is there already; it is left as it is\n" % name)
    for name in ("no/folder", ""):
        expect(["areas", name, "new"], NOT_DONE, "", "cc100: cannot write %s: No such file or directory\n" % name)


def limited(length):
    """For a process that may write no further into a file, and is told so by an error."""
    def limit():
        signal.signal(signal.SIGXFSZ, signal.SIG_IGN)
        resource.setrlimit(resource.RLIMIT_FSIZE, (length, length))
    return limit


def test_new_cut_off():
    """A record that could not be written whole is not left behind."""
    for length in (0, 1, 4096, LENGTH - 1):
        remove()
        expect(areas("new"), NOT_DONE, "", "cc100: cannot write %s: File too large\n" % RECORD, preexec_fn=limited(length), restore_signals=False)
        equal(areas("new"), "whether a file is left", False, os.path.exists(path_of(RECORD)))
    expect(areas("new"), DONE, "", preexec_fn=limited(LENGTH), restore_signals=False)


def test_give_and_back():
    """The ticket's rule for the base, by hand."""
    put(bytes(LENGTH))
    for action, printed in (("give 16", line(0, 16)), ("give 64", line(0x40, 64)), ("give 32", line(0x20, 32)), ("give 16", line(0x10, 16)),
                            ("give 65536", line(0x10000, 65536)), ("give 0x80", line(0x80, 128)), ("back 0x20 32", line(0x20, 32)),
                            ("give 0x20", line(0x20, 32)), ("back 0 16", line(0, 16)), ("back 65536 0x10000", line(0x10000, 65536)),
                            ("give 16", line(0, 16))):
        expect(areas(action), DONE, printed)
    equal(areas("show"), "the record", True,
          content() == changed((0, 4), (0x10, 4), (0x20, 5), (0x40, 6), (0x80, 7)))
    expect(areas("give 4096", "--json"), DONE, '{"event":"given","file":"%s","base":4096,"size":4096}\n' % RECORD)
    expect(areas("back 4096 4096", "--json"), DONE, '{"event":"taken_back","file":"%s","base":4096,"size":4096}\n' % RECORD)


def test_line_of_give():
    """What give prints is what back takes."""
    put(changed((0, 4)))
    before = content()
    printed = run(areas("give 256")).out.decode()
    expect(["areas", RECORD, "back"] + printed.split(), DONE, printed)
    equal(areas("back"), "whether the record is as it was before", True, content() == before)


def test_names():
    """A record of any name, in an object as JSON has it."""
    for name in ('a "name"', "a\\b", "tab\tname", b"caf\xe9", "\u00e9.record"):
        remove(name)
        expect(["areas", "--json", name, "new"], DONE, '{"event":"new","file":%s}\n' % escaped(name))
        came = expect(["areas", name, "give", "16", "--json"], DONE, '{"event":"given","file":%s,"base":0,"size":16}\n' % escaped(name))
        equal(["areas", name], "what a JSON reader takes", 0, json.loads(came.out)["base"])


def test_calls_in_turn():
    """Random calls on one record; mostly large areas, so that it is full at times."""
    rng, keeper, met = random.Random(20261127), Keeper(), set()
    put(bytes(LENGTH))
    for turn in range(120):
        size = rng.choice(SIZES[-3:] * 4 + SIZES)
        if keeper.out and rng.randrange(4) == 0:
            expect_taken_back(keeper, rng.choice(sorted(keeper.out)))
        elif keeper.lowest(size) is None:
            expect_refused("give %d" % size, 23, space(keeper))
            met.add(23)
        else:
            expect_given(keeper, size)
        if turn % 30 == 0:
            expect_shown(keeper)
    equal(areas("give"), "whether the memory was full at times", {23}, met)
    for base in sorted(keeper.out, key=lambda base: rng.random()):
        expect_taken_back(keeper, base)
    equal(areas("back"), "whether the record is zeros at the end", True, content() == bytes(LENGTH))


def test_show():
    every = {base: 1024 for base in range(0, KEPT, 1024)}
    for out in ({}, {0: 16}, {KEPT - 16: 16}, {KEPT - 65536: 65536}, {1024: 1024, 2048: 512, 3072: 16, 4080: 16}, every,
                {base: 16 for base in range(0, KEPT, 65536)}, {base: 65536 for base in range(0, KEPT, 65536)},
                {base: 16 for base in range(0, KEPT, 32)}):
        keeper = Keeper(out)
        put(keeper.record())
        if len(out) < 2000:
            expect_shown(keeper)
        else:
            expect(areas("show", "--json"), DONE, '{"event":"record","file":"%s","areas":%d,"out":%d,"free":%d,"largest":16}\n'
                   % (RECORD, len(out), KEPT // 2, KEPT // 2))
        equal(areas("show"), "whether the record is as it was", True, content() == keeper.record())


def space(keeper):
    """What is said where there is no base."""
    largest = keeper.largest()
    return "%d bytes are free%s." % (keeper.free(), "; the largest area that there is a base for has %d bytes" % largest if largest else "")


def test_no_space():
    for size, other in ((16, 16), (16, 65536), (65536, 16), (4096, 65536)):
        keeper = Keeper({base: size for base in range(0, KEPT, size)})
        put(keeper.record())
        expect_refused("give %d" % other, 23, "0 bytes are free.")
    keeper = Keeper({base: 16 for base in range(32768, KEPT, 65536)})
    put(keeper.record())
    expect_refused("give 65536", 23, "%d bytes are free; the largest area that there is a base for has 32768 bytes." % (KEPT - 256))
    expect_given(keeper, 32768)


WRONG_SIZES = (0, 1, 2, 4, 8, 15, 17, 24, 48, 65535, 65537, 131072, 0x100010, 2**31, 2**32 - 1)


def test_wrong_sizes():
    """Before all else: also of records that are not sound, or full."""
    for record in (bytes(LENGTH), changed((0, 3)), b"", bytes([4]) * LENGTH):
        put(record)
        for size in WRONG_SIZES if record == bytes(LENGTH) else (0, 24, 131072):
            expect_refused("give %d" % size, 2)
            expect_refused("back 0 %d" % size, 2)


NO_K = "Byte %d is %d, at 0x%08x: the k of an area out is from 4 to 16."
NO_BASE = "Byte %d is %d, an area of %d bytes at 0x%08x: its base is no multiple of its size."
OVERLAP = "Byte %d is %d, an area of %d bytes at 0x%08x: it overlaps the area of %d bytes at 0x%08x."
# Records that are not sound, and what is said of them.
UNSOUND = [
    (changed((0x40, 3)), NO_K % (4, 3, 0x40)),
    (changed((0, 1)), NO_K % (0, 1, 0)),
    (changed((0xFFFF0, 17)), NO_K % (65535, 17, 0xFFFF0)),
    (changed((0x20000, 200)), NO_K % (0x2000, 200, 0x20000)),
    (changed((0x20000, 255), (0x30000, 1)), NO_K % (0x2000, 255, 0x20000)),
    (changed((0x10, 5)), NO_BASE % (1, 5, 32, 0x10)),
    (changed((0xFFFF0, 16)), NO_BASE % (65535, 16, 65536, 0xFFFF0)),
    (changed((0x8000, 16)), NO_BASE % (0x800, 16, 65536, 0x8000)),
    (changed((0, 6), (0x30, 4)), OVERLAP % (3, 4, 16, 0x30, 64, 0)),
    (changed((0x10000, 16), (0x1FFF0, 4)), OVERLAP % (0x1FFF, 4, 16, 0x1FFF0, 65536, 0x10000)),
    (changed((0, 4), (0x10000, 16), (0x10010, 4), (0x18000, 15)), OVERLAP % (0x1001, 4, 16, 0x10010, 65536, 0x10000)),
    (changed((0x60, 3), of=bytes([4]) * LENGTH), NO_K % (6, 3, 0x60)),
    (changed((0x60, 5), of=bytes([4]) * LENGTH), OVERLAP % (7, 4, 16, 0x70, 32, 0x60)),
] + [(bytes(length), "The file has %s%d bytes, and a record has 65536." % ("at least " if length > LENGTH else "", min(length, LENGTH + 1)))
     for length in (0, 1, LENGTH - 1, LENGTH + 1, 2 * LENGTH)]


def test_unsound():
    """Before 23, and whatever is handed back."""
    for record, finding in UNSOUND:
        put(record)
        for action in ("give 16", "give 65536", "back 0 16", "back 0x10 16", "show"):
            expect_refused(action, 24, finding)
        expect(areas("show", "--list"), REFUSED, "", refused_text("show", 24, finding))


def test_not_out():
    """What is said of an area handed back that is not out."""
    put(changed((0x20, 5), (0x1000, 12), (0x20000, 16)))
    for action, finding in (
            ("back 0x20 16", "The area out at 0x00000020 has 32 bytes."),
            ("back 0x20 64", "The area out at 0x00000020 has 32 bytes."),
            ("back 0x30 16", "No area begins at 0x00000030, which is in the area of 32 bytes at 0x00000020."),
            ("back 0x1800 2048", "No area begins at 0x00001800, which is in the area of 4096 bytes at 0x00001000."),
            ("back 0x2fff0 16", "No area begins at 0x0002fff0, which is in the area of 65536 bytes at 0x00020000."),
            ("back 0 16", "Nothing is out at 0x00000000."),
            ("back 0 65536", "Nothing is out at 0x00000000."),
            ("back 0x40 32", "Nothing is out at 0x00000040."),
            ("back 0x2000 16", "Nothing is out at 0x00002000."),
            ("back 0xffff0 16", "Nothing is out at 0x000ffff0."),
            ("back 0x21 32", "0x00000021 is no multiple of 16, and so the base of no area."),
            ("back 0x1f 32", "0x0000001f is no multiple of 16, and so the base of no area."),
            ("back 0x28 32", "0x00000028 is no multiple of 16, and so the base of no area."),
            ("back 0x100000 16", "0x00100000 is past the memory, which ends before 0x00100000."),
            ("back 0x100020 32", "0x00100020 is past the memory, which ends before 0x00100000."),
            ("back 0xffffffff 16", "0xffffffff is past the memory, which ends before 0x00100000.")):
        expect_refused(action, 24, finding)
    expect(areas("back 0x20 32"), DONE, line(0x20, 32))
    expect_refused("back 0x20 32", 24, "Nothing is out at 0x00000020.")


def wrong_usage(message):
    return "cc100 areas: %s\nusage: cc100 areas [OPTION]... RECORD new|give SIZE|back BASE SIZE|show\n'cc100 areas --help' says more\n" % message


def expect_wrong(words, message):
    """The usage is wrong, and the file stays as it is."""
    before = content()
    expect(["areas"] + words, NOT_DONE, "", wrong_usage(message))
    equal(["areas"] + words, "whether the record is as it was", True, content() == before)


def test_usage():
    put(bytes(LENGTH))
    for more in ([], ["--"], ["--json"], ["--list", "--"]):
        expect_wrong(more, "no file is named")
    for more in ([], ["--json"], ["--list"]):
        expect_wrong([RECORD] + more, "no action is named")
    for name in ("", "gives", "Give", "giv", "take", "16", "-", "list"):
        expect_wrong([RECORD, name], "there is no action '%s'" % name)
        expect_wrong([RECORD, name, "16"], "there is no action '%s'" % name)
    for action, takes in (("new", "nothing more"), ("show", "nothing more"), ("give", "a size"), ("back", "a base and a size")):
        for count in range(5):
            if count != {"give": 1, "back": 2}.get(action, 0):
                expect_wrong([RECORD, action] + ["16"] * count, "'%s' takes %s" % (action, takes))
    for action in ACTIONS[:-1]:
        expect_wrong(["--list", RECORD] + [word if word.islower() else "16" for word in action.split()], "--list is for 'show'")
    for words in (["new"], ["show"], ["give", "16"], []):
        expect_wrong(["-"] + words, "a record is a file, and not standard input")


def test_wrong_numbers():
    put(bytes(LENGTH))
    for text in ("", "x", "1x", "0x", "0xg", "+16", " 16", "16 ", "16.0", "1e3", "1,024", "4k", "4294967296", "0x100000000", "9" * 40):
        for words in (["give", text], ["back", text, "16"], ["back", "0", text]):
            expect_wrong([RECORD] + words, "'%s' takes numbers from 0 to 4294967295, decimal or hexadecimal, not '%s'" % (words[0], text))
    expect_wrong([RECORD, "--", "give", "-16"], "'give' takes numbers from 0 to 4294967295, decimal or hexadecimal, not '-16'")
    expect_wrong([RECORD, "give", "-16"], "there is no option '-1'")


MISSING = "cc100: cannot open %s: No such file or directory\ncc100: 'cc100 areas %s new' makes an empty record\n"
USES = ("give 16", "back 0 16", "show")  # of a record that has to be there


def test_files():
    for action in USES:
        for name in ("missing", "no/such/folder"):
            expect(["areas", name] + action.split(), NOT_DONE, "", MISSING % (name, name))
            equal(["areas", name], "whether there is a file now", False, os.path.exists(path_of(name)))
        said = "cannot read samples" if action == "show" else "cannot open samples"
        expect(["areas", "samples"] + action.split(), NOT_DONE, "", "cc100: %s: Is a directory\n" % said)
        expect(["areas", "samples/m.module/file"] + action.split(), NOT_DONE, "", "cc100: cannot open samples/m.module/file: Not a directory\n")
        expect(["areas", "/dev/null"] + action.split(), REFUSED, "",
               refused_text(action, 24, "The file has 0 bytes, and a record has 65536.", "/dev/null"))
    before = content("samples/m.module")
    expect("areas samples/m.module give 16", REFUSED, "",
           refused_text("give", 24, "The file has 32 bytes, and a record has 65536.", "samples/m.module"))
    equal("areas samples/m.module give 16", "whether the module is as it was", True, content("samples/m.module") == before)


def as_reader(modes):
    """Puts records with these modes into a folder, and gives what runs a copy of the program so that root too may only do what all may."""
    programs["copied"] = os.fsdecode(path_of("copied"))
    shutil.copyfile(programs["cc100"], programs["copied"])
    os.chmod(path_of("."), 0o755)
    os.chmod(path_of("copied"), 0o755)
    for name, mode in modes.items():
        write(name, changed((0, 4)))
        os.chmod(path_of(name), mode)
    return {"program": "copied", **as_other_user()}


def test_permissions():
    """A record that may only be read can be shown, and one that may not be read at all cannot be used."""
    other = as_reader({"readable.record": 0o444, "shut.record": 0o000})
    try:
        can_be_tried = run("--version", **other).status == DONE
    except (OSError, subprocess.SubprocessError):
        can_be_tried = False
    if can_be_tried:
        equal("areas readable.record show", "status", DONE, run("areas readable.record show", **other).status)
        expect("areas readable.record give 16", NOT_DONE, "", "cc100: cannot open readable.record: Permission denied\n", **other)
        expect("areas readable.record back 0 16", NOT_DONE, "", "cc100: cannot open readable.record: Permission denied\n", **other)
        for action in USES:
            expect("areas shut.record " + action, NOT_DONE, "", "cc100: cannot open shut.record: Permission denied\n", **other)
        expect("areas new.record new", NOT_DONE, "", "cc100: cannot write new.record: Permission denied\n", **other)
    else:
        skip("records that may not be read or written: user %d cannot run the program here" % OTHER_USER)
    os.chmod(path_of("."), 0o700)


def test_write_error():
    """Where the byte cannot be written nothing is given, and nothing printed."""
    put(changed((0, 5)))
    before = content()
    for action in ("give 16", "back 0 32"):
        for options in ((), ("--json",)):
            expect(areas(action, *options), NOT_DONE, "", "cc100: cannot write %s: File too large\n" % RECORD, preexec_fn=limited(0),
                   restore_signals=False)
            equal(areas(action), "whether the record is as it was", True, content() == before)


def test_output_error():
    """An area whose base cannot be printed is out, and standard error says which it is."""
    said = "cc100: cannot write the output: %s\n"
    given = "cc100: %s: the area of 64 bytes at 0x00000040 is out\n" % RECORD
    put(changed((0, 5)))
    compare(areas("give 64"), Came(NOT_DONE, None, (said % "Bad file descriptor" + given).encode()),
            run(areas("give 64"), stdout=subprocess.DEVNULL, preexec_fn=closes(1)))
    equal(areas("give 64"), "whether the area is out", True, content() == changed((0, 5), (0x40, 6)))
    for action, status in (("give 24", REFUSED), ("back 0x40 32", REFUSED), ("give", NOT_DONE)):
        compare(areas(action), Came(status, b"", None), run(areas(action), stderr=subprocess.DEVNULL, preexec_fn=closes(2)))
    compare(areas("show"), Came(NOT_DONE, None, None), run(areas("show", "--list"), stdout=subprocess.DEVNULL, stderr=subprocess.DEVNULL,
                                                                preexec_fn=closes(0, 1, 2)))
    equal(areas("show"), "whether anything was printed into the record", True, content() == changed((0, 5), (0x40, 6)))
    if not os.path.exists("/dev/full"):
        skip("a record shown on a full disk: there is no /dev/full")
        return
    with open("/dev/full", "wb") as full:
        for action in ("show", "back 0 32"):
            compare(areas(action), Came(NOT_DONE, None, (said % "No space left on device").encode()), run(areas(action), stdout=full))
    equal(areas("back 0 32"), "whether the area is taken back", True, content() == changed((0x40, 6)))


def started(action, *options):
    return subprocess.Popen([programs["cc100"]] + areas(action, *options), cwd=path_of("."), stdin=subprocess.DEVNULL, stdout=subprocess.PIPE,
                            stderr=subprocess.PIPE, env=environment())


def ended(process):
    out, err = process.communicate(timeout=TIMEOUT)
    return Came(process.returncode, out, err)


def expect_lock(kind, action, waits):
    """While the record is locked here a call waits, or does not; what it does is done on what stands in the record when the lock ends."""
    put(changed((0, 4)))
    with open(path_of(RECORD), "r+b") as file:
        fcntl.lockf(file, kind)
        process = started(action)
        if waits:
            time.sleep(SOON)
            equal(areas(action), "whether it waits", None, process.poll())
            file.write(changed((0, 4), (0x10, 4)))
            file.flush()
        else:
            process.wait(TIMEOUT)
    return ended(process)


def test_locks():
    """A give waits for a reader and for a writer, and so does a back; a look waits for a writer alone."""
    for kind in (fcntl.LOCK_EX, fcntl.LOCK_SH):
        compare(areas("give 16"), Came(DONE, line(0x20, 16).encode(), b""), expect_lock(kind, "give 16", True))
        compare(areas("back 0x10 16"), Came(DONE, line(0x10, 16).encode(), b""), expect_lock(kind, "back 0x10 16", True))
    for kind, count in ((fcntl.LOCK_EX, 2), (fcntl.LOCK_SH, 1)):
        came = expect_lock(kind, "show", kind == fcntl.LOCK_EX)
        equal(areas("show"), "areas out", "%d" % count, re.search(r"areas out +(\d+)", came.out.decode()).group(1))


def loop(script):
    """A shell that calls the command again and again, with the program and the record as $1 and $2."""
    return subprocess.Popen(["sh", "-c", script, "sh", programs["cc100"], RECORD], cwd=path_of("."), stdin=subprocess.DEVNULL,
                            stdout=subprocess.PIPE, stderr=subprocess.PIPE, env=environment(), start_new_session=True)


def lines_of(outs):
    """The areas that were printed, as pairs of base and size."""
    return [tuple(int(word, 0) for word in text.split()) for out in outs for text in out.decode().splitlines()]


def test_processes_at_once():
    """No two are given the same: every area that was printed is out, they are all different, and none overlap."""
    put(bytes(LENGTH))
    script = 'i=0; while [ $i -lt %d ]; do "$1" areas "$2" give %d || exit 1; i=$((i + 1)); done'
    sizes = [16, 16, 16, 64, 256, 1024, 64, 16]
    loops = [loop(script % (GIVES, size)) for size in sizes]
    came = [process.communicate(timeout=TIMEOUT) for process in loops]
    equal(areas("give"), "errors", [b""] * PROCESSES, [err for _, err in came])
    given = lines_of(out for out, _ in came)
    equal(areas("give"), "areas given", PROCESSES * GIVES, len(given))
    keeper = Keeper()
    for base, size in given:
        equal(areas("give"), "whether 0x%x overlaps another" % base, False, keeper.overlaps(base, size))
        keeper.out[base] = size
    equal(areas("give"), "whether the record is right", True, content() == keeper.record())


def test_give_and_back_at_once():
    """Each process hands back all that it is given; then nothing is out."""
    put(bytes(LENGTH))
    script = 'i=0; while [ $i -lt 20 ]; do a=$("$1" areas "$2" give %d) && "$1" areas "$2" back $a || exit 1; i=$((i + 1)); done'
    loops = [loop(script % size) for size in (65536, 16, 32768, 4096)]
    came = [process.communicate(timeout=TIMEOUT) for process in loops]
    equal(areas("back"), "errors", [b""] * len(loops), [err for _, err in came])
    equal(areas("back"), "areas taken back", [20] * len(loops), [len(lines_of([out])) for out, _ in came])
    equal(areas("back"), "whether nothing is out", True, content() == bytes(LENGTH))


def test_killed():
    """A process that is killed at any time leaves a sound record that has every area that was printed."""
    put(bytes(LENGTH))
    rng, given = random.Random(6), []
    for _ in range(20):
        process = loop('while "$1" areas "$2" give 16; do :; done')
        time.sleep(rng.uniform(0.01, 0.08))
        os.killpg(process.pid, signal.SIGKILL)
        out, _ = process.communicate(timeout=TIMEOUT)
        given += lines_of([out[:out.rfind(b"\n") + 1]])
    record = content()
    equal(areas("give"), "whether some were given", True, len(given) > 20)
    equal(areas("give"), "areas printed that are not out", [], [base for base, _ in given if record[base // SIXTEEN] != 4])
    equal(areas("show"), "status", DONE, run(areas("show")).status)


def test_on_the_disk():
    """The byte is written and on the disk before the base is printed."""
    if not shutil.which("strace"):
        skip("the order of writing, syncing and printing: strace is not installed")
        return
    put(bytes(LENGTH))
    process = subprocess.run(["strace", "-e", "trace=pwrite64,fsync,write", programs["cc100"]] + areas("give 16"), cwd=path_of("."),
                             capture_output=True, env=environment(), timeout=TIMEOUT)
    calls = re.findall(rb"^(pwrite64|fsync|write)\(", process.stderr, re.M)  # a build with sanitizers may write more when it ends
    equal(areas("give 16"), "calls of the system", [b"pwrite64", b"fsync", b"write"], calls[:3])


def test_mended():
    """docs/REFUSALS.md's way to mend a record: its command writes the byte of the area that it speaks of."""
    with open(os.path.join(os.path.dirname(os.path.abspath(__file__)), "..", "..", "docs", "REFUSALS.md"), encoding="utf-8") as file:
        command = re.search(r"^ +(printf .*)$", file.read(), re.M).group(1)
    remove("OTHER")
    expect("areas OTHER new", DONE)
    subprocess.run(["sh", "-c", command], cwd=path_of("."), capture_output=True, check=True)
    equal("areas OTHER show", "whether the record is right", True, content("OTHER") == Keeper({0x12000: 4096}).record())
    expect("areas --json --list OTHER show", DONE, '{"event":"record","file":"OTHER","areas":1,"out":4096,"free":1044480,"largest":65536}\n'
           '{"event":"area","base":73728,"end":77824,"size":4096}\n')
