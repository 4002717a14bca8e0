"""What bench/read and bench/check share: the program is called on texts that grow, and a line says what each took."""
import os
import statistics
import subprocess
import sys
import tempfile
import time
from pathlib import Path

TOP = Path(__file__).resolve().parent.parent
SCRIPT, BINARY = TOP / "vdm", TOP / "crates/vdm/out/vdm"
NAME = f"bench/{Path(sys.argv[0]).name}"
LIMIT = 4 * 1024 * 1024
CALLS = 3


def program_of(words):
    """Returns the program that the only word names, by default the binary of the script vdm."""
    if len(words) > 1:
        sys.exit(f"usage: {NAME} [PROGRAM]")
    if words:
        return os.path.abspath(words[0])
    # So that it is the binary of these sources.
    subprocess.run([SCRIPT, "run", "1"], stdin=subprocess.DEVNULL, stdout=subprocess.DEVNULL, check=True)
    return BINARY


def seconds(words, source, answer):
    """Returns how long one call takes. A text with another answer ends this script: its time would say nothing."""
    with open(source, "rb") as given:
        began = time.perf_counter()
        ran = subprocess.run(words, stdin=given, stdout=subprocess.PIPE)
        taken = time.perf_counter() - began
    if ran.returncode != 0 or ran.stdout != answer.encode():
        said = ran.stdout.decode(errors="replace").strip()
        sys.exit(f"{NAME}: a text is not accepted: status {ran.returncode}, {said}")
    return taken


def report(what, words, text, answer, before):
    """Prints the line of one text, and returns its median."""
    with tempfile.NamedTemporaryFile() as source:
        source.write(text.encode())
        source.flush()
        taken = [seconds(words, source.name, answer) for _ in range(CALLS)]
    median = statistics.median(taken)
    growth = f"{median / before:8.1f}" if before else ""
    print(f"{what:24} {len(text):9,} {median:9.3f} {max(taken):9.3f} {growth}".rstrip(), flush=True)
    return median


def report_all(words, series, answer):
    """Prints a line for the empty text, and one for each text of each series.

    A series is a function that makes the text of a count, and its counts. `answer` says what a text must be answered,
    by the name of that function and its count.
    """
    print(f"{f'seconds of {CALLS} calls':24} {'bytes':>9} {'median':>9} {'greatest':>9} {'growth':>8}")
    report("nothing", words, "", answer("nothing", 0), None)
    for make, counts in series:
        before = None
        for count in counts:
            what, text = f"{count:,} {make.__name__}", make(count)
            if len(text) > LIMIT:
                print(f"{what:24} {len(text):9,}   more than {LIMIT:,} bytes, left out")
                continue
            before = report(what, words, text, answer(make.__name__, count), before)
