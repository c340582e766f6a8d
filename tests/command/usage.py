"""Command lines: help, and everything that can be wrong with a command, an option, a number or the count of files."""
from modules import image
from program import DONE, NOT_DONE, REFUSED, expect, write

M = "samples/m.module"
M_WORDS = [0x3108003C, 0x011A4025, 0xAD090000, 0x0000000C, 0, 0, 0x08004000, 0]  # module M of document 01

EXIT_STATUS = """\
Exit status: 0 done or accepted, 1 refused or not complete, 2 not to be done
(wrong usage, a file that cannot be read or written).
"""

HELP = """\
usage: cc100 COMMAND [OPTION]... [FILE]...

Report modules in CC100-C machine code: checked, explained, listed and run, and
given areas of memory.

commands:
  check                 says in a line whether a module is accepted
  explain               says why a module is refused, and what to do about it
  list                  prints a module's instructions
  run                   checks a module and runs it to the end of its report
  tables                prints the 72 instructions by the fields of a word
  areas                 gives areas of memory to modules, and takes them back

options:
  --help                says this; 'cc100 COMMAND --help' says more of a command
  --version             says the version

FILE is a module: 16-byte bundles of four words, without a header. - stands for
standard input. Of areas it is the record.

""" + EXIT_STATUS

# What follows the name of a subcommand in its usage.
ARGUMENTS = {"check": " FILE...", "explain": " FILE | --number N", "list": " FILE", "run": " FILE", "tables": "",
             "areas": " RECORD new|give SIZE|back BASE SIZE|show"}

# What the help of a subcommand says before its options.
DESCRIPTIONS = {
    "check": """\
Prints 'accept' and the number of words, or 'refuse', the number of the rule that
is broken, and the index of the word that breaks it or -. Where there are several
files, each line begins with the file's name. 'cc100 explain' says why.
""",
    "explain": """\
Says whether a module is accepted. Where it is refused: the number, what it means,
the words around the place with an arrow, of a guard which word is wrong and what
it must be, whom to ask and what to do.
'cc100 explain --number N' says what a number means, without a module.
""",
    "list": """\
Prints a line for each word: its index, its address, the word, and the instruction
as assemblers write it, with the index of the word that a branch or jump leads to.
A load, store or jump by register is marked together with the two words of its
guard, where the checker takes the three in this layout:

      0  0x00010000  3108003c  / andi    $8,$8,0x3c
      1  0x00010004  011a4025  | or      $8,$8,$26
      2  0x00010008  ad090000  \\ sw      $9,0($8)
""",
    "run": """\
Checks a module and, where it is accepted, starts it, with the rows in its data
area, and runs it. SYSCALL 0 asks for the next figure: its place goes into
register 8 and the figure into register 9. SYSCALL 1 says that the report is
complete, with the total in register 8 and the rate in register 9. With --straight
the SYSCALL 0 of the last bundle says so too, with the total in register 8 and no
rate. Anything else ends the run, and the report is not complete; the last access
to the data area is then printed.
""",
    "tables": """\
Prints the four tables that say which instruction a word is: by its opcode and,
where that says SPECIAL, REGIMM or COP0, by another field in the table of that
name. A place's number is the bits of its row and then those of its column; a -
is a place that no instruction has.
""",
    "areas": """\
Keeps areas of 1,048,576 bytes of memory by a record, a file of 65,536 bytes.

  new             writes an empty record where no file is
  give SIZE       gives an area: a power of two from 16 to 65,536 bytes, at the
                  lowest base that is free; prints its base and its size
  back BASE SIZE  takes an area back, and prints the same
  show            prints a picture, a line for each 65,536 bytes and a place for
                  each 1,024: . free, # out, + partly out; and the totals

What is given is on the disk before it is printed, and no two processes are
given the same. 'cc100 explain --number N' says what the number of a refusal means.
""",
}

# The options in the order of the help: the line of each, and the subcommands that take it.
ALL = ("check", "explain", "list", "run", "tables", "areas")
MODULE = ALL[:4]  # those that take a module
OPTIONS = [
    ("help", "  --help                says this\n", ALL),
    ("json", "  --json                prints one JSON object a line\n", ("check", "explain", "run", "tables", "areas")),
    ("straight", "  --straight            takes only straight-through modules, known to finish\n", ("check", "explain", "run")),
    ("list", "  --list                for show: lists the areas that are out too\n", ("areas",)),
    ("number", "  --number N            explains a number alone, of a refusal or an exit\n", ("explain",)),
    ("rows", "  --rows FILE           a line of quantity, cost and price for each row\n", ("run",)),
    ("figures", "  --figures FILE        whole numbers that the module can ask for\n", ("run",)),
    ("budget", "  --budget N            steps of the whole run (1000000)\n", ("run",)),
    ("steps", "  --steps               prints a line for each step\n", ("run",)),
    ("memory-length", "  --memory-length N     bytes of memory (196608)\n", MODULE),
    ("code-base", "  --code-base N         address of the code area (0x10000)\n", MODULE),
    ("code-size", "  --code-size N         bytes of the code area (the module's length)\n", MODULE),
    ("data-base", "  --data-base N         address of the data area (0x20000)\n", MODULE),
    ("data-size", "  --data-size N         bytes of the data area (64)\n", MODULE),
]
FLAGS = ("help", "json", "straight", "list", "steps")
FILE_NAMES = ("rows", "figures")
LARGEST = {"memory-length": 2**64 - 1, "budget": 2**64 - 1}  # of all other numbers it is 2^32 - 1


def taken_by(command):
    return [name for name, _, commands in OPTIONS if command in commands]


def numeric(command):
    return [name for name in taken_by(command) if name not in FLAGS + FILE_NAMES]


def largest(option):
    return LARGEST.get(option, 2**32 - 1)


def help_of(command):
    lines = "".join(line for _, line, commands in OPTIONS if command in commands)
    numbers = "" if command == "tables" else "Numbers are decimal or hexadecimal (4096 or 0x1000)%s.\n\n" % (
        ". - stands for standard input" if command in MODULE else "")
    return "usage: cc100 %s [OPTION]...%s\n\n%s\noptions:\n%s\n%s%s" % (
        command, ARGUMENTS[command], DESCRIPTIONS[command], lines, numbers, EXIT_STATUS)


def wrong(command, message):
    """What standard error has where the usage of a subcommand is wrong, or of cc100 itself where there is none."""
    if not command:
        return "cc100: %s\nusage: cc100 COMMAND [OPTION]... [FILE]...\n'cc100 --help' says more\n" % message
    return "cc100 %s: %s\nusage: cc100 %s [OPTION]...%s\n'cc100 %s --help' says more\n" % (
        command, message, command, ARGUMENTS[command], command)


def expect_wrong(arguments, message, command=None):
    """The subcommand is the first of the arguments unless another is named."""
    expect(arguments, NOT_DONE, "", wrong(arguments[0] if command is None else command, message))


def expect_wrong_itself(arguments, message):
    expect_wrong(arguments, message, "")


def not_a_number(option, text):
    return "--%s takes a number from 0 to %d, decimal or hexadecimal, not '%s'" % (option, largest(option), text)


def test_help():
    for arguments in (["--help"], ["-h"], ["--help", "check"], ["-h", "no such thing"]):
        expect(arguments, DONE, HELP)
    for command in ALL:
        for more in ("--help", "-h", "--hel", "--h", "-hx", M + " --help", "missing.module -h", "--help --nothing"):
            expect([command] + more.split(), DONE, help_of(command))
    for command in MODULE:
        expect([command, "--data-size", "2", "--help"], DONE, help_of(command))


def test_version():
    """It is asked of cc100 itself; which one it is, is compared with the documents."""
    for command in ALL:
        expect_wrong([command, "--version"], "there is no option '--version'")


def test_commands():
    expect_wrong_itself([], "no command is named")
    for name in ("checks", "chec", "Check", "", " check", "samples/m.module", "--json", "--hel", "--vers", "-v", "-", "--", "help"):
        expect_wrong_itself([name], "there is no command '%s'" % name)
        expect_wrong_itself([name, "check", M], "there is no command '%s'" % name)


def test_unknown_options():
    for command in ALL:
        for option in ("--nothing", "--jso n", "--json-", "--JSON", "--nothing=3", "--data_size", "--=", "---json"):
            expect_wrong([command, option, M], "there is no option '%s'" % option)
            expect_wrong([command, M, option], "there is no option '%s'" % option)
        for option, letter in (("-j", "j"), ("-x", "x"), ("-json", "j"), ("-8", "8"), ("-:", ":"), ("-?", "?"), ("-xh", "x")):
            expect_wrong([command, option, M], "there is no option '-%s'" % letter)
            expect_wrong([command, M, option], "there is no option '-%s'" % letter)
        for option in ("-\u00e9", "-\n", "- "):
            expect_wrong([command, option, M], "there is no option of one letter but -h")


def test_options_of_other_subcommands():
    for name, _, commands in OPTIONS:
        for command in set(ALL) - set(commands):
            for option in ("--" + name, "--" + name + "=1"):
                expect_wrong([command, option, M], "there is no option '%s'" % option)


def test_ambiguous_options():
    """Two options begin with each of these."""
    for command in ALL:
        for option in ("--c", "--code", "--code-", "--d", "--data", "--data-", "--data=64"):
            expect_wrong([command, option, M], "there is no option '%s'" % option)
            expect_wrong([command, M, option], "there is no option '%s'" % option)


def test_abbreviated_options():
    """An option may be cut off where only one begins so. M is accepted in this layout, and not in the last ones."""
    accepted = '{"file":"samples/m.module","verdict":"accept","words":8}\n'
    expect(["check", "--j", M], DONE, accepted)
    layout = ["--m", "196608", "--code-b", "0x10000", "--code-s=32", "--data-b=0x20000", "--data-s", "64"]
    expect(["check", "--js", M] + layout, DONE, accepted)
    expect(["check", "--m", "16777217", M], REFUSED, "refuse 1 -\n")
    expect(["check", "--data-s", "3", M], REFUSED, "refuse 3 -\n")
    expect(["check", "--s", M], REFUSED, "refuse 20 6\n")  # M jumps back to its first word
    expect(["run", "--st", "--stra", M], NOT_DONE, "", wrong("run", "there is no option '--st'"))  # or --steps
    expect_wrong(["explain", "--n", "28"], "28 is no number of a refusal, 1 to 27, or of an exit, 40 to 52")
    expect_wrong(["run", "--b", "x", M], not_a_number("budget", "x"))


def test_missing_values():
    for command in ALL:
        for name in [name for name in taken_by(command) if name not in FLAGS]:
            expect_wrong([command, "--" + name], "--%s needs a value" % name)
            expect_wrong([command, M, "--" + name], "--%s needs a value" % name)
            expect_wrong([command, M, "--" + name[:-1]], "--%s needs a value" % name)


def test_values_of_flags():
    for command in ALL:
        for name in [name for name in taken_by(command) if name in FLAGS]:
            for text in ("--%s=1", "--%s=", "--%s=yes"):
                expect_wrong([command, text % name, M], "--%s takes no value" % name)
                expect_wrong([command, M, text % name], "--%s takes no value" % name)


def wrong_numbers(option):
    """No numbers, and numbers that are too large, by one and by far."""
    past = largest(option) + 1
    texts = ["", "x", "no", "-1", "-0", "+1", "0x", "0X", "0x-1", "0xg", "0x1g", "00x10", "x10", "1f", "0b1", "1e3", "1.0", "1,000",
             "16 ", " 16", "1 6", "16k", "16\n", "\t1", "1/", "1:", "0x1@", "0x1G", "0x1`", "0x 1", "--", "--json"]
    return texts + ["%d" % past, "%#x" % past, "%d" % (10 * past), "%#x" % (16 * past), "1" + "0" * 40, "0x1" + "0" * 40, "9" * 100]


def test_wrong_numbers():
    """Every option with every wrong number, and every subcommand with every option."""
    tried = set()
    for command in ("explain", "run", "check", "list"):
        for option in numeric(command):
            for text in wrong_numbers(option) if option not in tried else ["-1", "%d" % (largest(option) + 1)]:
                expect_wrong([command, "--" + option, text, M], not_a_number(option, text))
            tried.add(option)
            expect_wrong([command, M, "--%s=16x" % option], not_a_number(option, "16x"))
            expect_wrong([command, "--%s=" % option, M], not_a_number(option, ""))


def test_numbers_that_are_taken():
    """Each of these says 64, 63 or 52: of the three, only 64 is a data size."""
    for text in ("64", "064", "0064", "0" * 50 + "64", "0x40", "0X40", "0x0040", "0x" + "0" * 50 + "40"):
        expect(["check", "--data-size", text, M], DONE, "accept 8\n")
        expect(["check", "--data-size=" + text, M], DONE, "accept 8\n")
    for text in ("63", "0x3f", "0x3F", "0X3f", "52", "0", "00", "0x0"):
        expect(["check", "--data-size", text, M], REFUSED, "refuse 3 -\n")
    for digits in ("abcdef00", "ABCDEF00"):  # a multiple of 32, and outside memory
        expect(["check", "--code-base", "0x" + digits, M], REFUSED, "refuse 4 -\n")


# The largest number of each option, and the one before or after which the verdict changes. Memory of 2^32 + 196,608 bytes is not taken as
# 196,608, nor a data size of 2^32 + 64 as 64.
TAKEN = [
    ("memory-length", 2**64 - 1, "refuse 1 -"),
    ("memory-length", 2**32 + 196608, "refuse 1 -"),
    ("memory-length", 16777217, "refuse 1 -"),
    ("memory-length", 16777216, "accept 8"),
    ("memory-length", 131072 + 64, "accept 8"),
    ("memory-length", 131072 + 63, "refuse 5 -"),
    ("memory-length", 0, "refuse 4 -"),
    ("code-base", 2**32 - 1, "refuse 4 -"),
    ("code-base", 0, "refuse 15 6"),
    ("code-size", 2**32 - 1, "refuse 2 -"),
    ("code-size", 32, "accept 8"),
    ("code-size", 64, "refuse 7 -"),
    ("data-base", 2**32 - 1, "refuse 5 -"),
    ("data-base", 0, "accept 8"),
    ("data-base", 65536, "refuse 6 -"),
    ("data-size", 2**32 - 1, "refuse 3 -"),
    ("data-size", 128, "accept 8"),
    ("data-size", 32, "refuse 22 0"),
]


def test_largest_numbers():
    for option, number, line in TAKEN:
        status = DONE if line.startswith("accept") else REFUSED
        for text in ("%d" % number, "%#x" % number):
            expect(["check", "--" + option, text, M], status, line + "\n")
    # M takes three steps to its system call, the third a store, and there are no figures.
    started = "8 words of code at 0x10000, 64 bytes of data at 0x20000\nafter 3 steps, at 0x1000c: "
    complete = started + "asks for a figure, none are left; the report is complete\ndata: %s\n" % " ".join(["0"] * 16)
    for text in ("18446744073709551615", "0xffffffffffffffff", "4294967296", "0x100000001", "4"):
        expect(["run", "--budget", text, M], DONE, complete)
    expect(["run", "--budget", "3", M], REFUSED, started + "still running, and its budget is spent; the report is not complete\n"
           "last access: store of 4 bytes at 0x20000, place 0 of the data area\n")
    for number in (2**32 - 1, 2**32 - 12):
        expect_wrong(["explain", "--number", "%#x" % number], "%d is no number of a refusal, 1 to 27, or of an exit, 40 to 52" % number)


def test_last_of_an_option():
    """Where an option is given twice, the last one is taken."""
    expect(["check", "--data-size", "2", "--data-size", "64", M], DONE, "accept 8\n")
    expect(["check", "--data-size", "64", M, "--data-size", "2"], REFUSED, "refuse 3 -\n")
    expect_wrong(["check", "--data-size", "x", "--data-size", "64", M], not_a_number("data-size", "x"))


def test_missing_files():
    for command in MODULE:
        for more in ([], ["--"], ["--data-size", "64"], ["--data-size", "64", "--"]):
            expect_wrong([command] + more, "no file is named")


def test_too_many_files():
    """Only check takes several."""
    for command in ("explain", "list", "run"):
        for more in (["second"], ["second", "third"], ["--data-size", "64", "second"], ["--", "second"], ["-"], ["--", "--data-size"]):
            second = [word for word in more if word not in ("--data-size", "64", "--")] or ["--data-size"]
            expect_wrong([command, M] + more, "'%s' is one file too many" % second[0])
    expect_wrong(["list", "missing.module", ""], "'' is one file too many")


def test_no_files():
    """The tables are of no file."""
    for more in ([M], ["--json", M], [M, "--json"], ["--", M], [M, "second"]):
        expect_wrong(["tables"] + more, "'%s' is one file too many" % M)
    for name in ("-", "", "missing.module"):
        expect_wrong(["tables", name], "'%s' is one file too many" % name)
    expect_wrong(["tables", "--", "--json"], "'--json' is one file too many")


def test_number_with_a_file():
    for arguments in (["--number", "12", M], [M, "--number=12"], ["--number", "12", "--", M], ["--json", "--number", "12", M, "more"]):
        expect_wrong(["explain"] + arguments, "'%s' is one file too many" % M)
    expect_wrong(["explain", "--number", "12", "-"], "'-' is one file too many")
    # The count of files comes before the number itself.
    expect_wrong(["explain", "--number", "25", M], "'%s' is one file too many" % M)


def test_places_of_options():
    """Options may stand before and after files, and after -- there are only files."""
    both = "samples/m.module: refuse 22 0\nsamples/refused.module: refuse 22 0\n"
    refused = "samples/refused.module"
    for arguments in (["--data-size", "32", M, refused], [M, "--data-size", "32", refused], [M, refused, "--data-size=32"],
                      ["--data-size", "32", "--", M, refused], [M, "--data-size=32", "--", refused]):
        expect(["check"] + arguments, REFUSED, both)
    expect(["check", "--", M, "--data-size", "32"], NOT_DONE, "samples/m.module: accept 8\n",
           "cc100: cannot open --data-size: No such file or directory\ncc100: cannot open 32: No such file or directory\n")
    expect(["check", "--", "-h"], NOT_DONE, "", "cc100: cannot open -h: No such file or directory\n")
    expect(["check", "--", "--"], NOT_DONE, "", "cc100: cannot open --: No such file or directory\n")
    write("--json", image(M_WORDS, 32))
    expect(["check", "--", "--json"], DONE, "accept 8\n")
    expect(["check", "./--json"], DONE, "accept 8\n")


def test_a_value_that_looks_like_an_option():
    """The word after an option that takes a value is the value."""
    expect(["run", "--rows", "--nothing", M], NOT_DONE, "", "cc100: cannot open --nothing: No such file or directory\n")
    expect(["run", "--figures", "--", M], NOT_DONE, "", "cc100: cannot open --: No such file or directory\n")


def test_first_fault():
    """Only the first thing that is wrong is said, and what is wrong with the usage comes before what is wrong with a file."""
    expect_wrong(["check", "missing.module", "--nothing"], "there is no option '--nothing'")
    expect_wrong(["check", "--data-size", "x", "--nothing"], not_a_number("data-size", "x"))
    expect_wrong(["run", "--steps=1", "--data-size", "x"], "--steps takes no value")
    expect_wrong(["list", "missing.module", "second", "--data-size"], "--data-size needs a value")
