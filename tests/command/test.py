#!/usr/bin/env python3
"""The tests of the command cc100.

    python3 tests/command/test.py CC100 VERDICT EMULATED REFUSING [SUBJECT]...

from the top folder. CC100 is the program under test, VERDICT the verdict program, EMULATED what tests/command/emulated.c and tests/emulator are
compiled to, and REFUSING the command with tests/command/refused_start.c in place of the start. Each subject is a file beside this one; every function in it that is named test_ is run, of all subjects if
none is named. The last line says how many checks there were and how many failed, and the exit status is 1 where any did.
"""
import importlib
import os
import sys
import traceback

sys.dont_write_bytecode = True  # the tests write nothing into the repository
sys.path.insert(0, os.path.dirname(os.path.abspath(__file__)))

import program

SUBJECTS = ["usage", "check", "explaining", "listing", "running", "rows", "steps", "straight", "tables", "areas", "files", "terminal",
            "documents"]


def run_test(function):
    """A test that cannot be gone through is a check that failed, and the others go on."""
    try:
        function()
    except Exception:
        program.record([function.__module__, function.__name__], [("the test itself", "", traceback.format_exc())])


def tests_of(subject):
    return [thing for name, thing in vars(subject).items() if name.startswith("test_") and thing.__module__ == subject.__name__]


def main():
    if len(sys.argv) < 5:
        sys.exit("usage: test.py CC100 VERDICT EMULATED REFUSING [SUBJECT]...")
    program.set_up(cc100=sys.argv[1], verdict=sys.argv[2], emulated=sys.argv[3], refusing=sys.argv[4])
    try:
        for name in sys.argv[5:] or SUBJECTS:
            for function in tests_of(importlib.import_module(name)):
                run_test(function)
    finally:
        program.clean_up()
    for what in program.not_tried:
        print("not tried: %s" % what)
    print("command tests: %d checks, %d failed" % (program.count["checks"], program.count["failed"]))
    sys.exit(1 if program.count["failed"] else 0)


if __name__ == "__main__":
    main()
