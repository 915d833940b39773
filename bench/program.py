"""The program of `crates/tests_calls`: builds it where need be, and times calls of it and of its peers."""

import os
import statistics
import subprocess
import sys
from pathlib import Path

from timing import in_turn, run, stop

TOP = Path(__file__).resolve().parent.parent
CRATE = TOP / "crates" / "tests_calls"
PROGRAM = CRATE / "out" / "tests_calls"

# A call's time is the difference of a run with many repeats and a run with few, so that start and reading don't count.
FEW, MANY = 1, 11
ROUNDS = 7

# The C library's allocator gives back the same memory at the next call, so that no call pays for memory that is new.
SAME_MEMORY = {"MALLOC_MMAP_MAX_": "0", "MALLOC_TRIM_THRESHOLD_": str(1 << 34)}
NEW_MEMORY = {}


def is_built():
    if not os.access(PROGRAM, os.X_OK):
        return False
    built = PROGRAM.stat().st_mtime
    sources = [TOP / "crates.txt"]
    for folder, inner, names in os.walk(TOP / "crates"):
        if "out" in inner:
            inner.remove("out")
        sources += [Path(folder) / name for name in names if name.endswith((".rt", ".antt"))]
    return all(source.stat().st_mtime <= built for source in sources)


def build():
    if is_built():
        return
    print("bench/run: proving and building, which takes some minutes the first time", file=sys.stderr)
    (CRATE / "out").mkdir(exist_ok=True)
    PROGRAM.unlink(missing_ok=True)
    log = CRATE / "out" / "build.log"
    with open(log, "wb") as output:
        # It ends with status 2, since it is given no words here.
        subprocess.run(["rt", "run"], cwd=CRATE, stdin=subprocess.DEVNULL, stdout=output, stderr=output)
    if not os.access(PROGRAM, os.X_OK):
        sys.exit(log.read_text())


def works(name, *given):
    """The command that has the program do some work on what is given, for a number of repeats."""
    return lambda repeats: [str(PROGRAM), name, str(repeats), *given]


def expect(name, command, wanted):
    """Stops where a command of that name doesn't print the line that is wanted."""
    _, line = run(command(FEW))
    if line != wanted:
        stop(f"{name} printed {line}")


def seconds_of_a_call(command, memory, many=MANY):
    """The processor time of one call, where `command` gives the words for a number of repeats."""
    few_seconds, _ = run(command(FEW), memory)
    many_seconds, _ = run(command(many), memory)
    return (many_seconds - few_seconds) / (many - FEW)


def timer(command, memory, many=MANY):
    """What times a call of that command."""
    return lambda: seconds_of_a_call(command, memory, many)


def medians(timers):
    """The time of each, by its name: the median of some rounds, in turns."""
    return in_turn(timers, ROUNDS, statistics.median)
