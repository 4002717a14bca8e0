"""What bench/expressions and bench/functions share: each work is done by the program and by python3, in turns, and a line says what
both took."""
import os
import statistics
import subprocess
import sys
import time
from pathlib import Path
from subprocess import DEVNULL, PIPE, STDOUT

TOP = Path(__file__).resolve().parent.parent
SCRIPT, BINARY = TOP / "vdm", TOP / "crates/vdm/out/vdm"
NAME = f"bench/{Path(sys.argv[0]).name}"
CALLS = 5
SECONDS = 120
# What Python does around a work: it is measured alone, and its value is printed.
MEASURED = """
from time import perf_counter
{work}
began = perf_counter()
value = work()
print(perf_counter() - began, str(value).lower())
"""


class Missed(Exception):
    """A call that gave no value, and why."""


class Work:
    """An expression over a specification, the units that it takes, and the function `work` of Python that gives the same value."""

    def __init__(self, what, expression, units, python, text=""):
        self.what, self.expression, self.units, self.text = what, expression, units, text
        self.python = MEASURED.format(work=python)


def ended(words, text=""):
    """Returns the seconds that a call took and what it wrote, or raises Missed where it did not end well."""
    began = time.perf_counter()
    try:
        ran = subprocess.run(words, input=text.encode(), stdout=PIPE, stderr=STDOUT, timeout=SECONDS)
    except subprocess.TimeoutExpired:
        raise Missed(f"not done after {SECONDS} seconds") from None
    taken, said = time.perf_counter() - began, ran.stdout.decode(errors="replace").strip()
    if ran.returncode != 0:
        raise Missed(f"status {ran.returncode}, {said[-100:]}")
    return taken, said


def here(program, work):
    taken, said = ended([program, "run", work.expression, "--steps", str(work.units)], work.text)
    return taken, said.removeprefix("result: ")


def there(work):
    _, said = ended(["python3", "-c", work.python])
    taken, value = said.split()
    return float(taken), value


def compared(program, work, empty):
    """Returns the two medians; values that are not the same end this script."""
    ours, theirs = [], []
    for _ in range(CALLS):
        taken, value = here(program, work)
        other, same = there(work)
        if value != same:
            sys.exit(f"{NAME}: {work.what}: {value} here, {same} in Python")
        ours.append(taken - empty)
        theirs.append(other)
    return max(statistics.median(ours), 1e-6), statistics.median(theirs)


def report(program, work, empty, before):
    """Prints the line of one work, and returns its medians, or nothing where it was missed."""
    line = f"{work.what:24} {work.units:9,}"
    try:
        ours, theirs = compared(program, work, empty)
    except Missed as missed:
        print(f"{line} {missed}", flush=True)
        return None
    line += f" {1_000 * ours:9.1f} {1_000 * theirs:9.1f} {ours / theirs:7.1f}"
    print(line + (f" {ours / before[0]:7.1f} {theirs / before[1]:7.1f}" if before else ""), flush=True)
    return ours, theirs


def program_of(words):
    """Returns the program that the only word names, by default the binary of the script vdm."""
    if len(words) > 1:
        sys.exit(f"usage: {NAME} [PROGRAM]")
    if words:
        return os.path.abspath(words[0])
    # So that it is the binary of these sources.
    subprocess.run([SCRIPT, "run", "1"], stdin=DEVNULL, stdout=DEVNULL, check=True)
    return BINARY


def report_all(words, works, text=""):
    """Prints a line for each of the works, which stand by what is done, the smaller before the greater.

    What a run that evaluates 1 over the text takes is taken off.
    """
    program, nothing = program_of(words), Work("nothing", "1", 1, "", text)
    empty = statistics.median(here(program, nothing)[0] for _ in range(CALLS))
    print(f"A run that evaluates 1 takes {1_000 * empty:.1f} milliseconds, which are taken off.")
    print(f"{'work':24} {'units':>9} {'here':>9} {'Python':>9} {'ratio':>7} {'growth':>7} {'Python':>7}")
    for sizes in works:
        before = None
        for work in sizes:
            before = report(program, work, empty, before)
