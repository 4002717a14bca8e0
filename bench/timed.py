"""What bench/sets, bench/lex, bench/grammar, bench/classes, bench/tables, bench/checks, bench/operators, bench/texts and bench/patterns
share: the program `rows` is built and asked, and its lines are read."""
import statistics
import subprocess
import sys
from pathlib import Path

TOP = Path(__file__).resolve().parent.parent
CRATE = TOP / "crates/rows"
CALLS = 5


def is_built():
    """Whether the program is there, and no source is newer."""
    program = CRATE / "out/rows"
    if not program.exists():
        return False
    sources = [it for kind in ["*.rt", "*.antt"] for it in (TOP / "crates").rglob(kind)]
    return all(it.stat().st_mtime <= program.stat().st_mtime for it in [TOP / "crates.txt", *sources])


def build():
    """Proves and links the program, as `rt run` decides; what that prints is shown only where it fails.

    What `rt ci` has built is taken as it is: to read the sources of all crates again takes minutes.
    """
    if is_built():
        return
    ran = subprocess.run(["rt", "run"], cwd=CRATE, stdin=subprocess.DEVNULL, stdout=subprocess.PIPE, stderr=subprocess.STDOUT)
    if ran.returncode != 0:
        sys.stderr.write(ran.stdout.decode(errors="replace"))
        sys.exit(f"{sys.argv[0]}: the build failed")


def measured(requests):
    """Returns for each request what the program says of it, and the median and the greatest of its calls in nanoseconds.

    A request is what stands behind `time `, as `set falling 1000`. Its calls are each in a process of its own.
    """
    said, taken = {}, {it: [] for it in requests}
    for _ in range(CALLS):
        for request in requests:
            line = f"time {request}\n".encode()
            ran = subprocess.run([CRATE / "out/rows"], input=line, stdout=subprocess.PIPE, check=True)
            what, nanoseconds = ran.stdout.decode().split()
            said[request] = what
            taken[request].append(int(nanoseconds))
    return {it: (said[it], statistics.median(taken[it]), max(taken[it])) for it in requests}
