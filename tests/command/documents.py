"""The sentences of cc100 explain beside the documents that say the same, and the manual page beside the help."""
import functools
import json
import os
import re

from program import DONE, NOT_DONE, equal, expect, run

ROOT = os.path.join(os.path.dirname(os.path.abspath(__file__)), "..", "..")
REFUSALS, EXITS = range(1, 28), range(40, 53)
COMMANDS = ["check", "explain", "list", "run", "tables", "areas"]
USAGE = "usage: cc100 explain [OPTION]... FILE | --number N\n'cc100 explain --help' says more\n"


def text_of(path):
    with open(os.path.join(ROOT, path), encoding="utf-8") as file:
        return file.read()


@functools.lru_cache(maxsize=None)
def explained(number):
    return json.loads(run("explain --json --number %d" % number).out)


def all_explained():
    return {number: explained(number) for number in list(REFUSALS) + list(EXITS)}


def members(numbers, *names):
    """Of each number, the members of these names."""
    return {number: tuple(explained(number)[name] for name in names) for number in numbers}


def table(path, heading):
    """The rows of the table under a heading, as lists of cells, without its first two lines."""
    section = text_of(path).split("\n" + heading + "\n", 1)[1].split("\n## ", 1)[0]
    lines = [line for line in section.split("\n") if line.startswith("|")]
    return [[cell.strip() for cell in line.strip("|").split(" | ")] for line in lines[2:]]


def numbered(rows):
    return {int(row[0]): tuple(row[1:]) for row in rows if row[0].isdigit()}


def test_members():
    """What a number's object has, and that its texts stand in the text for people too."""
    for number, came in all_explained().items():
        arguments = ["explain", "--number", "%d" % number]
        refusal = number in REFUSALS
        names = ["number", "is"] + (["meaning", "ask", "change", "example"] if refusal else ["name", "meaning"])
        equal(arguments, "members", names, list(came))
        equal(arguments, "number and kind", (number, "refusal" if refusal else "exit"), (came["number"], came["is"]))
        text = " ".join(run(arguments).out.decode().split())
        for name in names[2:]:
            equal(arguments, "the text has its " + name, True, came[name] in text)


def test_numbers_that_are_none():
    for number in (0, 28, 29, 39, 53, 54, 64, 255, 256, 257, 4294967295):
        for option in ("", "--json "):
            expect("explain %s--number %d" % (option, number), NOT_DONE, "",
                   "cc100 explain: %d is no number of a refusal, 1 to 27, or of an exit, 40 to 52\n%s" % (number, USAGE))


def test_header():
    """Every number that the header has is explained, and no other."""
    defined = re.findall(r"^#define (CC100_(?:REFUSED|EXIT)_\w+) (\d+)u", text_of("include/cc100.h"), re.M)
    numbers = {name: int(number) for name, number in defined}
    equal(["explain"], "refusals of cc100.h", list(REFUSALS), sorted(n for name, n in numbers.items() if name.startswith("CC100_REFUSED_")))
    equal(["explain"], "exits of cc100.h", list(EXITS), sorted(n for name, n in numbers.items() if name.startswith("CC100_EXIT_")))
    for number in list(range(0, 70)) + [2**32 - 1]:
        status = DONE if number in numbers.values() else NOT_DONE
        equal(["explain", "--number", "%d" % number], "exit status", status, run("explain --number %d" % number).status)


def test_refusals_page():
    equal(["explain"], "docs/REFUSALS.md", numbered(table("docs/REFUSALS.md", "## The numbers")),
          members(REFUSALS, "meaning", "example", "change"))


def numbers_of(words):
    """The numbers of a text such as `1, 3 to 6 and 9`."""
    numbers = []
    for part in re.split(" and |, ", words):
        first, *last = part.split(" to ")
        numbers += range(int(first), int(last[0] if last else first) + 1)
    return numbers


def test_whom_to_ask():
    """Each of the page's items is for some numbers, and begins with what is said of them."""
    section = text_of("docs/REFUSALS.md").split("\n## Whom to ask\n")[1].split("\n## ")[0]
    items = re.findall(r"^- \*\*([^*]+)\.\*\* (.*(?:\n  .*)*)", section, re.M)
    met = []
    for words, text in items:
        for number in numbers_of(words):
            met.append(number)
            ask = explained(number)["ask"]
            equal(["explain", "--number", "%d" % number], "docs/REFUSALS.md, whom to ask", ask, " ".join(text.split())[:len(ask)])
    equal(["explain"], "docs/REFUSALS.md, numbers in whom to ask", list(REFUSALS), sorted(met))


def test_readme():
    rows = table("README.md", "## Numbers")
    meanings = {number: cells[1:] for number, cells in numbered(rows).items() if number}
    equal(["explain"], "README.md, refusals", meanings, members(REFUSALS, "meaning"))
    exits = ", ".join("%d %s" % (number, explained(number)["name"]) for number in EXITS)
    equal(["explain"], "README.md, exits", ["the step ends in an exit: " + exits], [row[2] for row in rows if row[0] == "40 to 52"])
    equal(["explain"], "README.md, numbers", ["%d" % number for number in range(28)] + ["40 to 52"], [row[0] for row in rows])


def test_instructions_page():
    equal(["explain"], "docs/INSTRUCTIONS.md", numbered(table("docs/INSTRUCTIONS.md", "## Exits")), members(EXITS, "name", "meaning"))


def unformatted(text):
    """A manual page's text without the marks of its format: fonts, quotation marks of arguments, and escapes."""
    lines = []
    for line in text.split("\n"):
        if re.match(r"\.(BR|RB|BI|IR|RI)\b", line):  # arguments are joined, and a quoted one may have blanks
            line = "".join(re.sub(r'^"|"$', "", word) for word in re.findall(r'"[^"]*"|\S+', line)[1:])
        lines.append(re.sub(r"^\.[BI] ", "", line))
    return re.sub(r"\\&", "", "\n".join(lines).replace("\\-", "-"))


def section_of(page, name):
    """A section of a manual page, or a part of one."""
    return re.split(r"\n\.S[HS] ", text_of(page).split('\n%s\n' % name, 1)[1])[0]


def tagged(section):
    """The paragraphs of a section that have a tag, by it, each in one line."""
    paragraphs = re.split(r"^\.TP(?: \d+)?\n", unformatted(section), flags=re.M)[1:]
    return {tag: " ".join(text.split()) for tag, _, text in (paragraph.partition("\n") for paragraph in paragraphs)}


def test_manual_of_calls():
    page = "man/cc100.3"
    refusals = {int(tag): (text,) for tag, text in tagged(section_of(page, ".SS Refusals")).items()}
    equal(["explain"], page + ", refusals", refusals, members(REFUSALS, "meaning"))
    exits = {int(tag): (text,) for tag, text in tagged(section_of(page, ".SS Exits")).items()}
    equal(["explain"], page + ", exits", exits, members(EXITS, "name"))


def help_of(command):
    return run([command, "--help"] if command else ["--help"]).out.decode()


def options_of(command):
    """What the help says of each option, and what its value is called: the lines between `options:` and the next empty one."""
    lines = help_of(command).split("\noptions:\n")[1].split("\n\n")[0].split("\n")
    return {name: (value, text) for name, value, text in (re.match(r"  --([a-z-]+)(?: (\w+))? +(.*)", line).groups() for line in lines)}


def manual_options():
    """The same from the manual page."""
    options = {}
    for tag, text in tagged(section_of("man/cc100.1", ".SH OPTIONS")).items():
        name, value = re.match(r"--([a-z-]+)(?:, -h)?(?: (\w+))?$", tag).groups()
        options[name] = (value, text)
    return options


def test_options():
    """The manual page has every option that a help has, with its value, its default and the commands that take it, and no other."""
    manual = manual_options()
    helps = {command: options_of(command) for command in [""] + COMMANDS}
    equal(["--help"], "options of the manual page", sorted(manual), sorted({name for options in helps.values() for name in options}))
    for command, options in helps.items():
        for name, (value, text) in options.items():
            arguments = [command, "--help"] if command else ["--help"]
            equal(arguments, "value of --%s" % name, manual[name][0], value)
            default = re.search(r"\((.*)\)$", text)
            said = re.search(r"; (.*) unless said otherwise\.", manual[name][1])
            equal(arguments, "default of --%s" % name, said and said.group(1), default and default.group(1))
    for name, (_, text) in manual.items():
        takers = [command for command in COMMANDS if name in helps[command]]
        listed = " and ".join(", ".join(takers).rsplit(", ", 1))
        equal(["--help"], "who takes --%s" % name, 0 < len(takers) < len(COMMANDS), text.startswith("For "))
        if text.startswith("For "):
            equal(["--help"], "who takes --%s" % name, "For %s" % listed, text.split(":")[0])


def test_numbers_of_the_manual_page():
    equal(["explain"], "man/cc100.1, --number", "For explain: the number to explain, %d to %d or %d to %d."
          % (REFUSALS[0], REFUSALS[-1], EXITS[0], EXITS[-1]), manual_options()["number"][1])


def test_commands():
    """The manual page's synopsis and parts, and the help of each, are of the commands that the help lists."""
    listed = re.findall(r"^  ([a-z]+) +\w", help_of("").split("\ncommands:\n")[1].split("\n\n")[0], re.M)
    synopsis = re.findall(r"^cc100 ([a-z]+)$", unformatted(section_of("man/cc100.1", ".SH SYNOPSIS")), re.M)
    equal(["--help"], "commands", COMMANDS, listed)
    equal(["--help"], "commands of the synopsis", COMMANDS, list(dict.fromkeys(synopsis)))
    equal(["--help"], "commands with a part of their own", COMMANDS, re.findall(r"^\.SS cc100 (\w+)$", text_of("man/cc100.1"), re.M))
    for command in COMMANDS:
        usages = help_of(command).split("\n")[0]
        pattern = r"usage: cc100 %s \[OPTION\]\.\.\.%s" % (command, {"tables": "", "areas": " RECORD .*"}.get(command, " FILE.*"))
        equal([command, "--help"], "its first line", True, re.fullmatch(pattern, usages) is not None)


# The statuses, in the words of the help, and how the manual page begins to tell them.
STATUSES = [("0", "done or accepted", "Done: the module is accepted"), ("1", "refused or not complete", "Refused or not complete: "),
            ("2", "not to be done", "Not to be done: the usage is wrong, a file cannot be read")]


def test_exit_statuses():
    manual = tagged(section_of("man/cc100.1", '.SH "EXIT STATUS"'))
    equal(["--help"], "exit statuses of the manual page", [status for status, _, _ in STATUSES], list(manual))
    words = ", ".join("%s %s" % (status, words) for status, words, _ in STATUSES)
    said = "Exit status: %s (wrong usage, a file that cannot be read or written)." % words
    for command in [""] + COMMANDS:
        equal([command, "--help"], "exit statuses", said, " ".join(help_of(command).strip().split("\n\n")[-1].split()))
    for status, _, begins in STATUSES:
        equal(["--help"], "exit status %s of the manual page" % status, begins, manual[status][:len(begins)])


def test_version():
    """The release that README and the change log speak of, and the Makefile's, which the pages are filled with."""
    made = re.search(r"^VERSION = (.*)$", text_of("Makefile"), re.M).group(1)
    expect(["--version"], DONE, "cc100 %s\n" % made)
    equal(["--version"], "README.md", [made], re.findall(r"This is release ([\d.]+\d)", text_of("README.md")))
    equal(["--version"], "CHANGELOG.md", made, re.search(r"^## \D*([\d.]+\d)", text_of("CHANGELOG.md"), re.M).group(1))
