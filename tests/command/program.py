"""Runs the program under test, and keeps count of what was expected and what came.

A test hands expect() a command line and all that must come of it: the exit status, standard output and standard error, each to the last
byte. Everything runs in a temporary folder that has a copy of samples/, so that the names in messages are short and nothing is written into
the repository.
"""
import collections
import os
import shlex
import shutil
import subprocess
import tempfile

DONE, REFUSED, NOT_DONE = 0, 1, 2  # the exit statuses
TIMEOUT = 100                      # seconds; nothing here takes more than a few
SHOWN_IN_FULL = 50                 # failures
SHOWN_LINES = 30                   # of a long text, from where it differs

Came = collections.namedtuple("Came", "status out err")

programs = {}  # paths by name: cc100, verdict, emulated, refusing
folder = ""    # the temporary one
count = collections.Counter()
not_tried = []  # what this machine does not have


def set_up(**paths):
    global folder
    folder = os.path.realpath(tempfile.mkdtemp(prefix="cc100-"))
    programs.update({name: os.path.abspath(path) for name, path in paths.items()})
    shutil.copytree("samples", os.path.join(folder, "samples"))


def clean_up():
    shutil.rmtree(folder)


def path_of(name):
    return os.path.join(os.fsencode(folder), os.fsencode(name))


def write(name, content):
    """Writes a file into the folder and gives its name. Names are text or bytes, and so are contents."""
    with open(path_of(name), "wb") as file:
        file.write(as_bytes(content))
    return name


def as_bytes(text):
    return text if isinstance(text, bytes) else text.encode("utf-8")


def words_of(arguments):
    """A command line is a list, or one text that is split at its blanks."""
    return arguments.split() if isinstance(arguments, str) else list(arguments)


def environment():
    """Ours, without what changes how options are read."""
    return {name: value for name, value in os.environ.items() if name != "POSIXLY_CORRECT"}


def run(arguments, data=None, program="cc100", **more):
    """Runs a program in the folder, with these bytes as its standard input, and gives what came."""
    command = [programs[program]] + words_of(arguments)
    more.setdefault("stdout", subprocess.PIPE)
    more.setdefault("stderr", subprocess.PIPE)
    if data is None:
        more.setdefault("stdin", subprocess.DEVNULL)
    else:
        more["input"] = data
    done = subprocess.run(command, cwd=folder, env=environment(), timeout=TIMEOUT, **more)
    return Came(done.returncode, done.stdout, done.stderr)


def expect(arguments, status, out="", err="", data=None, **more):
    """Runs the program under test and compares all that comes. Gives what came."""
    came = run(arguments, data, **more)
    compare(arguments, Came(status, as_bytes(out), as_bytes(err)), came)
    return came


def compare(arguments, expected, came):
    """One check of a whole outcome."""
    names = {"status": "exit status", "out": "standard output", "err": "standard error"}
    wrong = [(names[part], getattr(expected, part), getattr(came, part)) for part in names if getattr(expected, part) != getattr(came, part)]
    record(arguments, wrong)


def equal(arguments, what, expected, came):
    """One check of a single thing that a command line gave. Gives whether it is as expected."""
    record(arguments, [] if expected == came else [(what, expected, came)])
    return expected == came


def record(arguments, wrong):
    count["checks"] += 1
    if not wrong:
        return
    count["failed"] += 1
    print("FAILED: %s" % command_line(arguments))
    if count["failed"] <= SHOWN_IN_FULL:
        for what, expected, came in wrong:
            print_difference(what, expected, came)


def command_line(arguments):
    """As it is typed into a shell; the folder is left out."""
    return " ".join(["cc100"] + [shlex.quote(os.fsdecode(word)).encode("utf-8", "backslashreplace").decode() for word in words_of(arguments)])


def print_difference(what, expected, came):
    if isinstance(expected, bytes) and isinstance(came, bytes):
        expected, came = (text.decode("utf-8", "backslashreplace") for text in (expected, came))
    if isinstance(expected, str) and isinstance(came, str):
        first = max(0, first_difference(expected.split("\n"), came.split("\n")) - 1)
        print("  %s, expected%s:" % (what, " from line %d on" % (first + 1) if first else ""))
        print_text(expected, first)
        print("  came:")
        print_text(came, first)
    else:
        print("  %s, expected: %r\n  came: %r" % (what, expected, came))


def first_difference(one, other):
    return next((i for i, (a, b) in enumerate(zip(one, other)) if a != b), min(len(one), len(other)))


def print_text(text, first):
    lines = text.split("\n")
    for i, line in enumerate(lines[first:first + SHOWN_LINES]):
        last = first + i == len(lines) - 1
        if line or not last:
            print("    | %s%s" % (repr(line)[1:-1], " (no end of line)" if last else ""))
    if len(lines) > first + SHOWN_LINES:
        print("    ... %d lines more" % (len(lines) - first - SHOWN_LINES))


def skip(what):
    """Says at the end that something was not tried."""
    not_tried.append(what)
