"""Files that cannot be read or are no modules, and output that cannot be written, for every subcommand."""
import os
import resource
import shutil
import subprocess
import textwrap
import time

from modules import LARGEST, image, module
from program import DONE, NOT_DONE, REFUSED, Came, compare, environment, equal, expect, path_of, programs, run, skip, write

M = image([0x3108003C, 0x011A4025, 0xAD090000, 0x0000000C, 0, 0, 0x08004000, 0], 32)  # module M of document 01
SOON = 10             # seconds, in which a run ends whose budget would last for years
FOR_YEARS = "18446744073709551615"
KILLED_BY_PIPE = -13  # the status of a process that SIGPIPE ended
OTHER_USER = 65534
LITTLE_ROOM = 14 << 20

# Every command line that reads a file, which stands for FILE.
MODULES = ["check FILE", "check --json FILE", "check --straight FILE", "explain FILE", "explain --json FILE", "explain --straight FILE",
           "list FILE", "run FILE", "run --json FILE", "run --steps FILE", "run --straight FILE"]
HANDED = ["run samples/margin.module --rows FILE", "run --json samples/m.module --figures FILE"]
READERS = MODULES + HANDED


def filled(reader, name):
    return [name if word == "FILE" else word for word in reader.split()]


def expect_unread(name, message, **more):
    """Nothing is printed for a file that cannot be read, and standard error says what is wrong with it."""
    for reader in READERS:
        expect(filled(reader, name), NOT_DONE, "", "cc100: %s\n" % message, **more)


def test_missing():
    expect_unread("missing", "cannot open missing: No such file or directory")
    expect_unread("", "cannot open : No such file or directory")
    expect_unread("no/such/folder", "cannot open no/such/folder: No such file or directory")
    expect_unread("samples/m.module/file", "cannot open samples/m.module/file: Not a directory")
    expect_unread("n" * 300, "cannot open %s: File name too long" % ("n" * 300))
    os.symlink("circle", path_of("circle"))
    expect_unread("circle", "cannot open circle: Too many levels of symbolic links")


def test_folder():
    expect_unread("samples", "cannot read samples: Is a directory")
    opened = os.open(path_of("samples"), os.O_RDONLY)
    expect_unread("-", "cannot read standard input: Is a directory", stdin=opened)
    os.close(opened)


def test_read_error():
    """The first page of a process's own memory is never there to be read."""
    if os.path.exists("/proc/self/mem"):
        expect_unread("/proc/self/mem", "cannot read /proc/self/mem: Input/output error")
    else:
        skip("a file that fails when it is read: there is no /proc/self/mem")


def as_other_user():
    """What a process is started with so that it may not read what it is not allowed to: root may."""
    return {"user": OTHER_USER, "group": OTHER_USER, "extra_groups": []} if os.geteuid() == 0 else {}


def can_be_tried():
    """Whether the other user can start a copy of the program and read with it what all may read."""
    try:
        return run("check open.module", program="copy", **as_other_user()) == Came(DONE, b"accept 8\n", b"")
    except (OSError, subprocess.SubprocessError):
        return False


def test_unreadable():
    programs["copy"] = os.fsdecode(path_of("copy"))
    shutil.copyfile(programs["cc100"], programs["copy"])
    os.mkdir(path_of("shut"))
    write("shut/m.module", M)
    modes = {".": 0o755, "copy": 0o755, write("open.module", M): 0o644, write("shut.module", M): 0o000, "shut": 0o600}
    for name, mode in modes.items():
        os.chmod(path_of(name), mode)
    if can_be_tried():
        for name in ("shut.module", "shut/m.module"):
            for reader in READERS:
                arguments = [word if not word.startswith("samples/") else "open.module" for word in filled(reader, name)]
                expect(arguments, NOT_DONE, "", "cc100: cannot open %s: Permission denied\n" % name, program="copy", **as_other_user())
        expect("check open.module shut.module open.module", NOT_DONE, "open.module: accept 8\n" * 2,
               "cc100: cannot open shut.module: Permission denied\n", program="copy", **as_other_user())
    else:
        skip("a file that may not be read: no other user can run the program here")
    os.chmod(path_of("."), 0o700)
    os.chmod(path_of("shut"), 0o700)


NOT_A_SIZE = "The code size, or an area's size, is not a power of two from 16 to 65,536."
SENDER = "Of a module, first whoever sent the file: it may have been cut off or added to on its way. Where it is whole, whoever set up the server. " \
    "Of an area, whoever asked for it or handed it back."
WHOLE = "See that the file is whole. The compiler fills a module up to such a size, before its last jump. Of an area: ask for the next larger of " \
    "these sizes, or hand it back with the size that it was given with."


def refused(name, length):
    """What each of MODULES but list prints on a file that is refused by its length: status, standard output and standard error."""
    shown = "standard input" if name == "-" else name
    said = "cc100: %s is refused, number 2: %s\n" % (shown, NOT_A_SIZE)
    members = '"file":"%s","verdict":"refuse","number":2,"place":null' % name
    explained = "%s is refused, number 2\n\n%s\n\n%s\n\n%s\n\n" % (
        shown, NOT_A_SIZE, textwrap.fill("Whom to ask: " + SENDER, 80), textwrap.fill("What to do: " + WHOLE, 80))
    read = "%s%d" % ("at least " if length > LARGEST else "", length)
    layout = "Checked for memory of 196608 bytes, %s bytes of code at 0x10000,\n64 bytes of data at 0x20000.\n" % read
    return {
        "check FILE": (REFUSED, "refuse 2 -\n", ""),
        "check --json FILE": (REFUSED, "{%s}\n" % members, ""),
        "check --straight FILE": (REFUSED, "refuse 2 -\n", ""),
        "explain FILE": (REFUSED, explained + layout, ""),
        "explain --straight FILE": (REFUSED, explained + layout, ""),
        "explain --json FILE": (REFUSED, '{%s,"meaning":"%s","ask":"%s","change":"%s","memory_length":196608,"code_base":65536,'
                                '"code_size":%d,"data_base":131072,"data_size":64}\n' % (members, NOT_A_SIZE, SENDER, WHOLE, length), ""),
        "run FILE": (REFUSED, "", said),
        "run --json FILE": (REFUSED, '{"event":"refused",%s}\n' % members, said),
        "run --steps FILE": (REFUSED, "", said),
        "run --straight FILE": (REFUSED, "", said),
    }


def test_empty():
    """An empty file is a module of no words, which is refused; there is nothing to list and no row or figure in it."""
    nothing = {reader: (NOT_DONE, "", "cc100: %s is empty\n") for reader in READERS if reader not in refused("", 0)}
    for name, shown in ((write("empty", ""), "empty"), ("/dev/null", "/dev/null"), ("-", "standard input")):
        for reader, (status, out, err) in refused(name, 0).items():
            expect(filled(reader, name), status, out, err)
        for reader, (status, out, err) in nothing.items():
            expect(filled(reader, name), status, out, err % shown)


def listed_zeros():
    """The largest module of zeros, in lines."""
    lines = ["%5d  0x%08x  00000000    nop\n" % (i, 0x10000 + 4 * i) for i in range(16384)]
    return "\n".join("".join(lines[i:i + 4]) for i in range(0, len(lines), 4))


def expect_too_long(name, **more):
    """One byte past the largest module is read, and no more."""
    for reader, (status, out, err) in refused(name, 65537).items():
        expect(filled(reader, name), status, out, err, **more)
    shown = "standard input" if name == "-" else name
    said = "cc100: %s is longer than the largest module, 65,536 bytes; the rest is not listed\n" % shown
    expect(["list", name], REFUSED, listed_zeros(), said, **more)


def test_too_long():
    for length in (65537, 131072):
        expect_too_long(write("long", bytes(length)))
        expect_too_long("-", data=bytes(length))
        write("long.rows", b"1" * length)
        for reader in HANDED:
            expect(filled(reader, "long.rows"), NOT_DONE, "", "cc100: long.rows, line 1: the line is too long\n")


def test_endless():
    if not os.path.exists("/dev/zero"):
        skip("an endless file: there is no /dev/zero")
        return
    expect_too_long("/dev/zero")
    for reader in HANDED:
        expect(filled(reader, "/dev/zero"), NOT_DONE, "", "cc100: /dev/zero, line 1: the line is too long\n")
    with open("/dev/zero", "rb") as zeros:
        expect("check -", REFUSED, "refuse 2 -\n", stdin=zeros)
        expect("run samples/m.module --figures -", NOT_DONE, "", "cc100: standard input, line 1: the line is too long\n", stdin=zeros)


def test_zero_bytes():
    """A zero byte is none of the characters of rows or figures, and does not hide what follows it."""
    for reader, sentence in zip(HANDED, ("not three whole numbers", "not a whole number")):
        for text in (b"1 2 3\0junk", b"1 2 3\0", b"1 2 3 \0 4 5 6", b"\0", b"1 2 3\0\n"):
            expect(filled(reader, write("zero.rows", text)), NOT_DONE, "", "cc100: zero.rows, line 1: %s\n" % sentence)


def test_standard_input_of_run():
    """The module, its rows or its figures can be standard input, and only one of them."""
    once = "cc100: standard input can be read only once\n"
    with open(path_of("samples/margin.module"), "rb") as file:
        margin = file.read()
    # Four steps, and 48 for each of four rows of zeros, lead to word 32, the Trap for no sales. The margin of the fourth is stored at 60.
    expect("run -", REFUSED, "64 words of code at 0x10000, 64 bytes of data at 0x20000\n"
           "after 196 steps, at 0x10080: Trap; the report is not complete\n"
           "last access: store of 4 bytes at 0x2003c, place 60 of the data area\n", data=margin)
    for arguments in ("run - --rows -", "run - --figures -", "run samples/m.module --rows - --figures -"):
        expect(arguments, NOT_DONE, "", once, data=margin if arguments.startswith("run -") else b"1 2 3\n")


def closes(*numbers):
    """For a process that is to be started without standard input, output or errors: 0, 1 or 2."""
    def close():
        for number in numbers:
            os.close(number)
    return close


def test_closed_input():
    """A file can be read all the same."""
    expect_unread("-", "cannot read standard input: Bad file descriptor", preexec_fn=closes(0))
    expect("check samples/m.module samples/refused.module", REFUSED, "samples/m.module: accept 8\nsamples/refused.module: refuse 22 0\n",
           preexec_fn=closes(0))
    expect("check samples/m.module -", NOT_DONE, "samples/m.module: accept 8\n",
           "cc100: cannot read standard input: Bad file descriptor\n", preexec_fn=closes(0))


def test_pieces():
    """Input that comes a few bytes at a time is read to its end."""
    process = subprocess.Popen([programs["cc100"], "check", "-"], stdin=subprocess.PIPE, stdout=subprocess.PIPE, bufsize=0,
                               env=environment())
    for i in range(0, 32, 3):
        process.stdin.write(M[i:i + 3])
        time.sleep(0.002)
    out, _ = process.communicate()
    equal("check -", "standard output", b"accept 8\n", out)
    equal("check -", "exit status", DONE, process.returncode)


def with_little_room():
    resource.setrlimit(resource.RLIMIT_AS, (LITTLE_ROOM, LITTLE_ROOM))


def test_no_room():
    """The largest memory has more bytes than the process may have. A build with sanitizers does not start at all with so few."""
    if run("--version", preexec_fn=with_little_room).status != DONE:
        skip("a run without room for its memory: this build does not start with %d bytes" % LITTLE_ROOM)
        return
    for more in ("", " --json", " --steps"):
        expect("run samples/m.module --memory-length 16777216" + more, NOT_DONE, "",
               "cc100: there is no room for 16777216 bytes of memory\n", preexec_fn=with_little_room)
    expect("check samples/m.module --memory-length 16777216", DONE, "accept 8\n", preexec_fn=with_little_room)


# Command lines that print something, on whatever stream they end with.
WRITERS = [
    "check samples/m.module", "check samples/refused.module", "check --json samples/m.module samples/refused.module",
    "explain samples/m.module", "explain samples/refused.module", "explain --json samples/refused.module", "explain --number 12",
    "explain samples/forgotten.module",
    "explain --json --number 40", "list samples/m.module", "list samples/margin.module", "run samples/m.module",
    "run samples/m.module --figures samples/m.figures", "run samples/margin.module",
    "run --json samples/margin.module --rows samples/margin.rows", "check --straight samples/m.module",
    "run --straight samples/totals.module --rows samples/margin.rows", "explain --straight samples/m.module",
    "run --steps samples/m.module", "run --steps --json samples/margin.module", "run samples/m.module --budget 1",
    "tables", "tables --json", "--help", "--version", "check --help", "run -h",
]


def expect_unwritten(arguments, reason, said="", **more):
    """Whatever would have come of it, the command ends with 2 and says why."""
    compare(arguments, Came(NOT_DONE, None, ("%scc100: cannot write the output: %s\n" % (said, reason)).encode()), run(arguments, **more))


def test_full():
    if not os.path.exists("/dev/full"):
        skip("output to a full disk: there is no /dev/full")
        return
    refused_said = "cc100: samples/refused.module is refused, number 22 at word 0: " \
        "An access with its two guard words, whose mask or offset is wrong: it could reach outside the data. The word is the guard's ANDI, " \
        "two before the access.\n"
    with open("/dev/full", "wb") as full:
        for arguments in WRITERS:
            expect_unwritten(arguments, "No space left on device", stdout=full)
        expect_unwritten("run --json samples/refused.module", "No space left on device", refused_said, stdout=full)
        # Nothing is printed here, so nothing fails.
        missing_said = b"cc100: cannot open missing: No such file or directory\n"
        compare("check missing", Came(NOT_DONE, None, missing_said), run("check missing", stdout=full))
        compare("run samples/refused.module", Came(REFUSED, None, refused_said.encode()), run("run samples/refused.module", stdout=full))


def test_closed_output():
    for arguments in WRITERS:
        expect_unwritten(arguments, "Bad file descriptor", stdout=subprocess.DEVNULL, preexec_fn=closes(1))


def closed_pipe():
    """The end of a pipe that nobody reads from."""
    read, written = os.pipe()
    os.close(read)
    return written


def test_closed_pipe():
    """Where the signal is ignored the command says that it cannot write; else the signal ends it."""
    pipe = closed_pipe()
    for arguments in WRITERS:
        expect_unwritten(arguments, "Broken pipe", stdout=pipe, restore_signals=False)
        compare(arguments, Came(KILLED_BY_PIPE, None, b""), run(arguments, stdout=pipe, restore_signals=True))
    os.close(pipe)


def test_long_run_without_a_reader():
    """A run whose steps cannot be printed ends soon, whatever its budget; its last line is not printed either."""
    loop = module([])
    pipe = closed_pipe()
    for more in ("", " --json"):
        arguments = "run --steps --budget %s %s%s" % (FOR_YEARS, loop, more)
        began = time.monotonic()
        expect_unwritten(arguments, "Broken pipe", stdout=pipe, restore_signals=False)
        expect_unwritten(arguments, "Bad file descriptor", stdout=subprocess.DEVNULL, preexec_fn=closes(1))
        compare(arguments, Came(KILLED_BY_PIPE, None, b""), run(arguments, stdout=pipe, restore_signals=True))
        equal(arguments, "ended soon", True, time.monotonic() - began < SOON)
    os.close(pipe)


def test_reader_that_goes_away():
    """As in `cc100 run --steps FILE | head -n 1`."""
    loop = module([])
    for restore, status, err in ((True, KILLED_BY_PIPE, b""), (False, NOT_DONE, b"cc100: cannot write the output: Broken pipe\n")):
        arguments = ["run", "--steps", "--budget", FOR_YEARS, os.fsdecode(path_of(loop))]
        process = subprocess.Popen([programs["cc100"]] + arguments, stdin=subprocess.DEVNULL, stdout=subprocess.PIPE,
                                   stderr=subprocess.PIPE, restore_signals=restore, env=environment())
        first = process.stdout.readline()
        process.stdout.close()
        said = process.stderr.read()
        started = b"4 words of code at 0x10000, 64 bytes of data at 0x20000\n"
        compare(arguments, Came(status, started, err), Came(process.wait(SOON), first, said))
        process.stderr.close()


def test_closed_errors():
    """What cannot be said is still in the exit status, and nothing of it is on standard output."""
    closed = {"stderr": subprocess.DEVNULL, "preexec_fn": closes(2)}
    for arguments in [filled(reader, name) for reader in READERS for name in ("missing", "samples")] + [
            [], ["nothing"], ["check"], ["list", "--data-size", "x", "FILE"], ["explain", "--number", "28"]]:
        compare(arguments, Came(NOT_DONE, b"", None), run(arguments, **closed))
    compare("check", Came(REFUSED, b"samples/m.module: accept 8\nsamples/refused.module: refuse 22 0\n", None),
            run("check samples/m.module samples/refused.module", **closed))
    compare("run", Came(REFUSED, b"", None), run("run samples/refused.module", **closed))
    all_closed = {"stdout": subprocess.DEVNULL, "stderr": subprocess.DEVNULL, "preexec_fn": closes(0, 1, 2)}
    for arguments in WRITERS + ["check -", "run samples/margin.module --rows samples"]:
        compare(arguments, Came(NOT_DONE, None, None), run(arguments, **all_closed))
