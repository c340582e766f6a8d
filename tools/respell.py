#!/usr/bin/env python3
"""Brings the repository's own definitions and lemmas to the spelling of today's Rattle: words in snake case.

usage: python3 tools/respell.py      at the top of a checkout that port.py has turned, once

It takes the names that the files of specs/ and the lemma files of proofs/ declare (definitions, lemmas, fields, constructors that begin with a small letter) and
turns camel case and dashes to underscores: in these files, in the clauses and ghost items of src/, in the edits of must-fail/ and in docs' code spans.
A name that a function's own folder of proofs alone declares stays, as the toolchain names goals. Where a law had the name of the definition that it is about,
but for the spelling, the definition has the name now, and the law the name with _law.
"""

import collections
import os
import re
import subprocess
import sys

TOKEN = re.compile(r"(?<![\w'\u2032-])[a-z][\w'\u2032]*(?:-[\w'\u2032]+)*(?![\w\u2032-])")
DECLARED = re.compile(r"^ *(?:(?:pub|abbrev|unfoldable|ruleset|data|record) )*(?!use |pub )(\S+)(?: \{[^{}\n]*\})* : ", re.M)
# Laws that would fall together with the definition that they are about, as they are spelled when this begins: the second line alone with underscores, in proofs.
LAWS = (
    "all-below by-kind fetch-outside first-of fits-code fits-data in-bundle is-code is-power key-at list-tries needs-guard no-operand put-bytes put-of"
    " resume-call run-tries sample-tried step-for stored-in straight-tried touched-of width-of"
).split()
SNAKE_LAWS = "is_found read_found run_call seen_bytes step_call stored_of".split()
# Names that the toolchain gives to goals and facts: they are no names of ours.
MADE = re.compile(r"(?:returns|loop|decreases|invariant|overflow_\w+)-?")


def snake(name):
    return re.sub(r"(?<=[a-z0-9])[A-Z]", lambda m: "_" + m[0].lower(), name).replace("-", "_").replace("\u2032", "'")


def files(*endings):
    listed = subprocess.run(["git", "ls-files"], capture_output=True, text=True, check=True).stdout.split("\n")
    return [f for f in listed if f.endswith(endings) and os.path.exists(f)]


def read(path):
    with open(path, encoding="utf-8") as f:
        return f.read()


def is_shared(path):
    """A file of specs/, or a lemma file right in proofs/."""
    parts = path.split("/")
    return len(parts) > 2 and (parts[2] == "specs" or parts[2] == "proofs" and len(parts) == 4)


def code_and_comment(line):
    at = re.search(r"(?:^|\s)(?:--|//)(?:\s|$)", line)
    return (line, "") if at is None else (line[: at.start()], line[at.start() :])


def main():
    antt = files(".antt")
    declared = collections.defaultdict(set)
    for path in antt:
        text = read(path)
        for name in DECLARED.findall(text):
            if is_shared(path) and name[:1].islower() and not MADE.match(name):
                declared[name].add(path)
    table, laws = {}, {}
    taken = collections.defaultdict(list)
    for name in declared:
        if name in LAWS or name in SNAKE_LAWS:
            taken[snake(name) + "_law"].append(name)
        elif snake(name) != name:
            taken[snake(name)].append(name)
    for new, olds in sorted(taken.items()):
        if len(olds) > 1 or new in declared and new not in SNAKE_LAWS:
            print(f"together: {new}: {' '.join(olds)}{' (declared)' if new in declared else ''}", file=sys.stderr)
        for old in olds:
            (laws if old in SNAKE_LAWS else table)[old] = new
    turn = lambda t: TOKEN.sub(lambda m: table.get(m[0], m[0]), t)
    camel = lambda t: TOKEN.sub(lambda m: table.get(m[0], m[0]) if "-" not in m[0] else m[0], t)
    spans = lambda t: re.sub(r"`[^`\n]+`", lambda m: turn(m[0]), t)
    for path in antt + files(".rt"):
        out = []
        for line in read(path).split("\n"):
            code, comment = code_and_comment(line)
            if path.endswith(".antt"):
                code = TOKEN.sub(lambda m: laws.get(m[0], m[0]), code)
            out.append(turn(code) + spans(camel(comment)))
        write(path, "\n".join(out))
    # Edits and pages have names too that port.py has turned in the crates, and there alone.
    table.update((name, snake(name)) for path in files(".edit", ".md") for name in TOKEN.findall(read(path)) if name not in table and snake(name) in declared)
    for path in files(".edit"):
        write(path, turn(read(path)))
    for path in files(".md"):
        if not path.startswith("docs/PORT"):
            write(path, spans(read(path)))
    print(f"{len(table)} names turned")


def write(path, text):
    if text != read(path):
        with open(path, "w", encoding="utf-8") as f:
            f.write(text)


main()
