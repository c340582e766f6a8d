#!/usr/bin/env python3
"""Runs README's commands on its samples, with the programs that PATH has, and compares what they print with what README says.

    tests/readme.py         from anywhere; they run in a new folder with samples/ and a target/ of its own

A command is an indented block that begins with one of the names below. Where the text after it begins with "prints" or "which prints", the
next block must be what the last of the commands printed. Blocks of listed words must stand so in the listing of the margin report.
"""
import pathlib
import re
import shutil
import subprocess
import sys
import tempfile

ROOT = pathlib.Path(__file__).resolve().parent.parent
NAMES = ("cc100", "samples/assemble.py")
FEWEST = 4  # commands whose output README tells: it has at least so many


def parts(text):
    """The blocks of the page in turn: ('code', lines) for an indented one, ('text', ...) for any other."""
    lines = re.sub(r"^```.*?^```$", "", text, flags=re.M | re.S).split("\n")
    blocks = []
    for line in lines:
        kind = "code" if line.startswith("    ") or (not line and blocks and blocks[-1][0] == "code") else "text"
        if not blocks or blocks[-1][0] != kind:
            blocks.append((kind, []))
        blocks[-1][1].append(line[4:] if kind == "code" else line)
    return [(kind, "\n".join(body).strip("\n")) for kind, body in blocks]


def printed_by(commands, folder):
    out = ""
    for command in commands.split("\n"):
        out = subprocess.run(["bash", "-c", command], cwd=folder, capture_output=True, text=True).stdout
    return out.strip("\n")


def listed_wrong(blocks, folder):
    """The blocks of listed words that the listing does not have."""
    listing = printed_by("cc100 list samples/margin.module", folder)
    return [body for kind, body in blocks if kind == "code" and re.match(r" *\d+  0x", body) and body not in listing]


def compare(folder):
    shutil.copytree(ROOT / "samples", folder / "samples")
    (folder / "target").mkdir()
    blocks = parts((ROOT / "README.md").read_text())
    checks = failures = 0
    for body in listed_wrong(blocks, folder):
        failures += 1
        print(f"FAILED README, the listing of samples/margin.module does not have\n{body}")
    for (kind, body), (_, between), (_, told) in zip(blocks, blocks[1:], blocks[2:]):
        if kind != "code" or body.split()[0] not in NAMES:
            continue
        came = printed_by(body, folder)
        if not between.strip().startswith(("prints", "which prints")):
            continue
        checks += 1
        if came != told:
            failures += 1
            print(f"FAILED README, {body}: it says\n{told}\ncame\n{came}")
    print(f"README's commands: {checks} checks, {failures} failed")
    return failures != 0 or checks < FEWEST


def main():
    with tempfile.TemporaryDirectory() as folder:
        return compare(pathlib.Path(folder))


if __name__ == "__main__":
    sys.exit(main())
