#!/usr/bin/env python3
"""Makes vectors.txt anew: writes the vectors, has them assembled by binutils and run by Unicorn, and stores what they give there.

Run it from anywhere. It needs Debian's packages gcc, binutils-mipsel-linux-gnu and libunicorn-dev; nothing that only runs the vectors does.
"""
import pathlib
import shutil
import struct
import subprocess
import sys
import tempfile

sys.dont_write_bytecode = True  # the imports would leave a folder beside the sources
import cases
import vectors

HERE = pathlib.Path(__file__).parent
TOOLS = {"gcc": "gcc"}
TOOLS.update({"mipsel-linux-gnu-" + tool: "binutils-mipsel-linux-gnu" for tool in ("as", "ld", "objcopy")})
ROOM = 128  # bytes of assembled code for each vector
END = 0xFFFFFFFF  # stands after each vector's words


def run(*command, **options):
    done = subprocess.run(command, stdout=subprocess.PIPE, stderr=subprocess.PIPE, **options)
    if done.returncode != 0:
        sys.exit("%s failed:\n%s" % (command[0], done.stderr.decode()))
    return done.stdout


def check_tools():
    for tool, package in TOOLS.items():
        if shutil.which(tool) is None:
            sys.exit("%s is not installed; Debian's package is %s" % (tool, package))
    probe = subprocess.run(["gcc", "-E", "-"], input=b"#include <unicorn/unicorn.h>\n", capture_output=True)
    if probe.returncode != 0:
        sys.exit("Unicorn's header is not installed; Debian's package is libunicorn-dev")


def assemble(texts, folder):
    """The words of each text, all assembled at once: a vector's own address shows in none of them, for branches count from where they
    stand and jumps name an address."""
    source = [".set noreorder", ".set noat", ".set nomacro"]
    for i, text in enumerate(texts):
        source += [".org %d" % (ROOM * i), text, ".word 0x%x" % END]
    (folder / "vectors.s").write_text("\n".join(source) + "\n")
    # without the option the assembler may put a SYNC before LL
    run("mipsel-linux-gnu-as", "--fatal-warnings", "-EL", "-mips2", "-mno-fix-loongson3-llsc", "-o", "vectors.o", "vectors.s", cwd=folder)
    run("mipsel-linux-gnu-ld", "-EL", "-Ttext=0", "-e", "0", "-o", "vectors.elf", "vectors.o", cwd=folder)
    run("mipsel-linux-gnu-objcopy", "-O", "binary", "-j", ".text", "vectors.elf", "vectors.bin", cwd=folder)
    code = (folder / "vectors.bin").read_bytes()
    return [words_of(text, code, ROOM * i) for i, text in enumerate(texts)]


def words_of(text, code, place):
    """The words at a place: one for each instruction of the text."""
    *words, end = struct.unpack_from("<%dI" % (text.count(";") + 2), code, place)
    assert end == END, text
    return words


def given_column(steps, given):
    items = [str(steps)]
    items += ["%s=%s" % (name, value.hex()) if isinstance(value, bytes) else "%s=%08x" % (name, value) for name, value in given.items()]
    return " ".join(items)


def result_column(line):
    """A line of crates/steps with the state's words by name and neighbouring bytes together."""
    number, *changes = line.split()
    made, last = [number], None
    for place, value in (change.split("=") for change in changes):
        if place[0] != "m":
            made.append("%s=%s" % (cases.NAMES[int(place)], value))
        elif last is not None and int(place[1:]) == last + 1:
            made[-1] += value
        else:
            made.append("%s=%s" % (place, value))
        last = int(place[1:]) if place[0] == "m" else None
    return " ".join(item for item in made if not item.startswith("next="))


def head(folder):
    binutils = run("mipsel-linux-gnu-as", "--version").decode().splitlines()[0]
    unicorn = run(folder / "qemu", "version").decode().strip()
    return vectors.HEAD.format(binutils=binutils, unicorn=unicorn)


def make(folder):
    groups = vectors.groups()
    made = [vector for _, group in groups for vector in group]
    run("gcc", "-std=c11", "-O2", "-Wall", "-Wextra", "-Werror", "-o", folder / "qemu", HERE / "qemu.c", "-lunicorn")
    codes = assemble([text for text, _, _ in made], folder)
    columns = [given_column(steps, given) for _, steps, given in made]
    raws = [cases.raw_case(code, int(column.split()[0]), *cases.values(column.split()[1:])) for code, column in zip(codes, columns)]
    lines = run(folder / "qemu", input=b"".join(raws)).decode().splitlines()
    texts = [" | ".join((text, " ".join("%08x" % word for word in code), column, result_column(line)))
             for (text, _, _), code, column, line in zip(made, codes, columns, lines)]
    rest = iter(texts)
    parts = [head(folder)] + ["\n# %s\n\n" % name + "".join(next(rest) + "\n" for _ in group) for name, group in groups]
    cases.VECTORS.write_text("".join(parts))
    assert cases.cases() == list(zip(raws, lines)), "what was written does not read back as what was run"
    vectors.check_tried(zip(made, lines))
    print(len(made), "vectors")


if __name__ == "__main__":
    check_tools()
    with tempfile.TemporaryDirectory() as name:
        make(pathlib.Path(name))
