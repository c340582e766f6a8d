"""The line by which a long run says at a terminal how far it is: what is written, and what is left on the screen."""
import functools
import os
import pty
import re
import resource
import shlex
import shutil
import subprocess
import tempfile
import time

from modules import module
from program import REFUSED, TIMEOUT, Came, compare, environment, equal, path_of, programs, run, skip

MILLION = 1000000
PAUSE = 0.2     # seconds between two lines
AGAIN = 0.02    # seconds between two looks at a screen
TRIAL = 50 * MILLION
NO_ACCESS = b"last access: none\n"
STARTED = b"4 words of code at 0x10000, 64 bytes of data at 0x20000\n"


@functools.lru_cache(maxsize=None)
def speed():
    """Steps a second of processor time, so that a run lasts as long on a faster machine, and no less on a busy one."""
    began = resource.getrusage(resource.RUSAGE_CHILDREN).ru_utime
    run("run --budget %d %s" % (TRIAL, module([])))
    return TRIAL / max(0.01, resource.getrusage(resource.RUSAGE_CHILDREN).ru_utime - began)


def lasting(seconds):
    """A budget that is spent in about so much time; it is no whole number of millions, and a multiple of 4 and 3 more."""
    return max(1, round(seconds * speed() / MILLION)) * MILLION + MILLION - 1


def spent(budget):
    """The last lines of a run through four words again and again."""
    place = 0x10000 + 4 * (budget % 4)
    return (b"after %d steps, at 0x%x: still running, and its budget is spent; the report is not complete\n" % (budget, place)
            + NO_ACCESS)


def read_all(number):
    """What is written to a terminal, until nobody has it open any more, which is an error to read."""
    text = b""
    try:
        while piece := os.read(number, 4096):
            text += piece
    except OSError:
        pass
    os.close(number)
    return text


def at_terminal(arguments, out, err):
    """Runs the command with standard output, standard error or both at one terminal. Gives the status, what the terminal got, and what the
    other stream got, which is a file and so never waits for a reader."""
    outside, inside = pty.openpty()
    with tempfile.TemporaryFile() as rest:
        process = subprocess.Popen([programs["cc100"]] + arguments.split(), cwd=path_of("."), stdin=subprocess.DEVNULL, env=environment(),
                                   stdout=inside if out else rest, stderr=inside if err else rest)
        os.close(inside)
        shown = read_all(outside)
        status = process.wait(TIMEOUT)
        rest.seek(0)
        return status, shown, rest.read()


def lines_of_progress(text, budget):
    """The numbers that a text has, and how it is to be if it has these: each line goes to the beginning of its line and wipes the rest."""
    numbers = [int(number) for number in re.findall(rb"(\d+) of \d+ million", text)]
    lines = [b"\rcc100: %d of %d million steps\033[K" % (number, budget // MILLION) for number in numbers]
    return numbers, b"".join(lines) + (b"\r\033[K" if lines else b"")


def right_numbers(numbers, most, seconds):
    """They rise, up to the steps of the run, and at most one comes in each pause."""
    return 0 < len(numbers) <= seconds / PAUSE and numbers == sorted(set(numbers)) and numbers[0] > 0 and numbers[-1] <= most


def expect_progress(arguments, budget, steps, last, out):
    """With standard error at a terminal, and standard output too or not."""
    began = time.monotonic()
    status, shown, rest = at_terminal(arguments, out, True)
    seconds = time.monotonic() - began
    numbers, lines = lines_of_progress(shown, budget)
    if out:
        compare(arguments, Came(REFUSED, (STARTED + lines + last).replace(b"\n", b"\r\n"), b""), Came(status, shown, rest))
    else:
        compare(arguments, Came(REFUSED, STARTED + last, lines), Came(status, rest, shown))
    equal(arguments, "numbers %r of at most %d in %.1f seconds" % (numbers, steps // MILLION, seconds), True,
          right_numbers(numbers, steps // MILLION, seconds))


def test_budget_spent():
    for out in (False, True):
        budget = lasting(1)
        expect_progress("run --budget %d %s" % (budget, module([])), budget, budget, spent(budget), out)


def test_exit():
    """ADDI 8,8,n at the first of four words overflows once the n fit no more into 2^31 - 1."""
    n = 16384
    while 4 * ((2**31 - 1) // n) < 0.7 * speed():
        n //= 2
    steps = 4 * ((2**31 - 1) // n)
    budget = 2**44
    last = b"after %d steps, at 0x10000: Integer Overflow; the report is not complete\n" % steps + NO_ACCESS
    expect_progress("run --budget %d %s" % (budget, module([0x21080000 | n])), budget, steps, last, False)


def test_json():
    """The line is for whoever looks on, also where a script reads the output."""
    budget = lasting(0.8)
    arguments = "run --json --budget %d %s" % (budget, module([], name="loop.module"))
    status, shown, rest = at_terminal(arguments, False, True)
    numbers, lines = lines_of_progress(shown, budget)
    out = b'{"event":"start","file":"loop.module","words":4,"code_base":65536,"data_base":131072,"data_size":64}\n' \
        b'{"event":"end","complete":false,"steps":%d,"address":%d,"number":0,"exit":null,"access":null}\n' \
        % (budget, 0x10000 + 4 * (budget % 4))
    compare(arguments, Came(REFUSED, out, lines), Came(status, rest, shown))
    equal(arguments, "lines of progress", True, len(numbers) > 0)


def test_no_terminal():
    """Standard error gets nothing where it is no terminal, whether or not standard output is one."""
    budget = lasting(0.7)
    arguments = "run --budget %d %s" % (budget, module([]))
    compare(arguments, Came(REFUSED, STARTED + spent(budget), b""), run(arguments))
    status, shown, rest = at_terminal(arguments, True, False)
    compare(arguments, Came(REFUSED, (STARTED + spent(budget)).replace(b"\n", b"\r\n"), b""), Came(status, shown, rest))


def test_short_run():
    """A run that is over at once says nothing on the way."""
    arguments = "run --budget 1000000 %s" % module([])
    status, shown, rest = at_terminal(arguments, False, True)
    compare(arguments, Came(REFUSED, STARTED + spent(MILLION), b""), Came(status, rest, shown))
    status, shown, rest = at_terminal(arguments, True, True)
    compare(arguments, Came(REFUSED, (STARTED + spent(MILLION)).replace(b"\n", b"\r\n"), b""), Came(status, shown, rest))


def test_steps():
    """Where the steps themselves are printed there is no line about them, however long it takes."""
    budget = round(0.4 * steps_printed_a_second())
    status, shown, rest = at_terminal("run --steps --budget %d %s" % (budget, module([])), False, True)
    compare("run --steps", Came(REFUSED, b"", spent(budget)), Came(status, shown, b"".join(rest.splitlines(True)[-2:])))


def steps_printed_a_second():
    trial = 20000
    began = time.monotonic()
    run("run --steps --budget %d %s" % (trial, module([])))
    return trial / (time.monotonic() - began)


class Screen:
    """A terminal of tmux, by a socket of its own, with a command in it that is followed by a long wait."""

    def __init__(self, command):
        self.environment = {**environment(), "LC_ALL": "C.UTF-8"}
        self.environment.pop("TMUX", None)
        wait = "cd %s; %s; exec sleep 100" % (shlex.quote(os.fsdecode(path_of("."))), command)
        self.started = self.tmux("-f", "/dev/null", "new-session", "-d", "-x", "150", "-y", "10", wait).returncode == 0

    def tmux(self, *arguments):
        command = ["tmux", "-S", os.fsdecode(path_of("tmux"))] + list(arguments)
        return subprocess.run(command, env=self.environment, capture_output=True, text=True)

    def lines(self):
        return self.tmux("capture-pane", "-p").stdout.rstrip("\n").split("\n")

    def end(self):
        self.tmux("kill-server")


def watch(screen, ending):
    """What is seen in the second line until the last lines are there, and the whole screen then."""
    seen, until = [], time.monotonic() + 30
    while time.monotonic() < until:
        lines = screen.lines()
        if ending[-1] in lines:
            return seen, lines
        if len(lines) > 1 and lines[1] not in seen + ending:
            seen.append(lines[1])
        time.sleep(AGAIN)
    return seen, screen.lines()


def test_screen():
    """On a real screen the line is under the first one while the run works, and gone when it has ended."""
    if not shutil.which("tmux"):
        skip("the line of progress on a screen: tmux is not installed")
        return
    budget = lasting(1)
    arguments = "run --budget %d %s" % (budget, module([], name="screen.module"))
    screen = Screen("%s %s" % (shlex.quote(programs["cc100"]), arguments))
    if not screen.started:
        skip("the line of progress on a screen: tmux does not start")
        return
    ending = spent(budget).decode().splitlines()
    seen, lines = watch(screen, ending)
    screen.end()
    equal(arguments, "screen at the end", [STARTED.decode().rstrip("\n")] + ending, lines)
    numbers, _ = lines_of_progress("\n".join(seen).encode(), budget)
    equal(arguments, "lines seen", ["cc100: %d of %d million steps" % (number, budget // MILLION) for number in numbers], seen)
    equal(arguments, "whether a line was seen", True, len(seen) > 0)
